"""Plays scripts with the programs of tests (crates/tests_of_*)."""
import re
import subprocess
import sys

from tests.support.places import built


def text_of(library, lines):
    """A script whose lines this library plays."""
    return "".join(f"{line}\n" for line in [f"script {library}", *lines]).encode()


def play(name, library, lines, cwd=None):
    """The answers of each line, and the seconds that each line after `clock` took. The script has to be played to its end."""
    done = subprocess.run([built(name)], input=text_of(library, lines), capture_output=True, cwd=cwd, timeout=900, check=False)
    if done.returncode != 0:
        sys.exit(f"{name}: status {done.returncode}: {done.stderr.decode()}")
    found, answers = done.stdout.decode().splitlines()[1:], []
    for line in lines:
        if not found or found.pop(0) != line:
            sys.exit(f"{name}: the transcript lacks {line!r}")
        told = []
        while found and found[0].startswith("  "):
            told.append(found.pop(0)[2:])
        answers.append(told)
    times = {int(number) - 2: int(micros) / 1e6 for number, micros in re.findall(r"^line (\d+): (\d+)$", done.stderr.decode(), re.MULTILINE)}
    return answers, [times.get(place) for place in range(len(lines))]
