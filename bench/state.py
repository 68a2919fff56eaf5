#!/usr/bin/env python3
"""Prints the seconds and the peak memory of reading and writing states and journals.

A state of 10,000 entries and one of 100,000, a journal of 100,000 steps without a log and one whose steps are all logged, each read and
written again; and the 10,000 steps of a journal on the disk logged by a call each. Logging syncs nothing, and the journal and its folder
are synced once when it is opened: these calls are counted if strace can be used. The memory is the greatest that the program held, in a
run of its own. tests_of_stores does it, by lines of a script of `book` (crates/test_book)."""
import os
import pathlib
import shutil
import subprocess
import sys
import tempfile

sys.path.insert(0, str(pathlib.Path(__file__).resolve().parents[1]))
from bench.memory import peak
from tests.support.places import build, built, parser_of
from tests.support.played import play, text_of
from tests.support.tally import Tally

NAME = "tests_of_stores"
MARK = "abcdefghijklmnopqrstuvwxyzABCDEFGHIJKLMNOPQRSTUVWXYZ0123456789-_"


def state(count):
    yield "mbsync state 1\nrun 1\nfar 1 %d\nnear 1 %d\n" % (count, count)
    for n in range(1, count + 1):
        yield "e %d %d %s\n" % (n, n, "FS" if n % 3 else "-")
    yield "end\n"


def mark(number):
    """Twelve characters of base64url, another for each number."""
    return "AAAA" + "".join(MARK[number >> shift & 63] for shift in range(42, -6, -6))


def journal(count, logged):
    yield "journal 1\nrun 1\nfar 1 %d %d\nnear 1 0 1\n" % (count, count + 1)
    for n in range(1, count + 1):
        yield "s new pull %d %s %s\n" % (n, "FS" if n % 3 else "-", mark(n))
    yield "go\n"
    for n in range(1, logged + 1):
        yield "d %d %d\n" % (n, n)


def peak_of(lines, folder):
    """The most memory that the program takes for these lines."""
    with tempfile.TemporaryFile() as source:
        source.write(text_of("book", lines))
        source.seek(0)
        here = os.getcwd()
        os.chdir(folder)
        try:
            return peak([built(NAME)], source)
        finally:
            os.chdir(here)


def measure_text(tally, kind, lines):
    """How long a text takes to be read and written again."""
    with tempfile.TemporaryDirectory() as folder:
        with open(os.path.join(folder, "text"), "w", encoding="ascii") as file:
            file.writelines(lines)
            size = file.tell()
        script = ["case a text", f"{kind} from text", "clock", f"read {kind}"]
        answers, times = play(NAME, "book", script, folder)
        memory = peak_of(script, folder)
    print("%-8s %-46s %9d bytes  read and written in %8.3f s  %5.1f MB" % (kind, answers[-1][0], size, times[-1], memory / 1e6))
    tally.passes()


def in_new_folder(act):
    """What is answered for a folder whose journal has 10,000 steps, of which none is logged."""
    with tempfile.TemporaryDirectory() as folder:
        with open(os.path.join(folder, "text"), "w", encoding="ascii") as file:
            file.writelines(journal(10000, 0))
        return act(folder)


def script_of_steps():
    return ["case steps", "journal from text", "shelf disk", "open", "clock", "log all"]


def count_syncs(folder):
    """How many files and folders are synced where the steps of a journal are logged, or none where strace cannot be used."""
    if shutil.which("strace") is None:
        return None
    with tempfile.NamedTemporaryFile("r") as trace:
        traced = subprocess.run(["strace", "-f", "-e", "trace=fsync", "-o", trace.name, built(NAME)], cwd=folder,
                                input=text_of("book", script_of_steps()), capture_output=True, check=False)
        return trace.read().count("fsync(") if traced.returncode == 0 else None


def measure_steps(tally):
    answers, times = in_new_folder(lambda folder: play(NAME, "book", script_of_steps(), folder))
    memory = in_new_folder(lambda folder: peak_of(script_of_steps(), folder))
    print("%-8s %-46s logged in %8.3f s  %5.1f MB" % ("steps", answers[-1][0], times[-1], memory / 1e6))
    syncs = in_new_folder(count_syncs)
    if syncs is None:
        tally.skip("counting syncs", "strace cannot be used")
    else:
        tally.check("the journal and its folder are synced once each", syncs == 2, f"{syncs} syncs")


def main():
    parser_of(__doc__).parse_args()
    build(NAME)
    tally = Tally()
    measure_text(tally, "state", state(10000))
    measure_text(tally, "state", state(100000))
    measure_text(tally, "journal", journal(100000, 0))
    measure_text(tally, "journal", journal(100000, 100000))
    measure_steps(tally)
    tally.end()


if __name__ == "__main__":
    main()
