#!/usr/bin/env python3
"""Runs the built mbplan on each world of the script of `plan` in crates/tests_of_words, and compares what it prints.

The program tests_of_words runs the same worlds through the library; this is the way through mbplan, its standard input and its exit
status. The worlds are those of the script's lines `world`, `line`, `behind` and `grow`, and what has to come of them is what follows these
lines in its expected output. It ends at the first world whose output differs."""
import os
import pathlib
import subprocess
import sys

sys.path.insert(0, str(pathlib.Path(__file__).resolve().parents[1]))
from oracle.mail import unescaped
from tests.support.places import TESTS_OF_WORDS, TOP, parser_of
from tests.support.tally import Tally, Wrong


def plan_lines(name):
    """The lines after `script plan`, up to those of the next library."""
    with open(os.path.join(TESTS_OF_WORDS, name), "rb") as file:
        _, _, lines = (b"\n" + file.read()).partition(b"\nscript plan\n")
    return lines.partition(b"\nscript ")[0].split(b"\n")


def answered():
    """Each line of the script, with the lines that follow it in the expected output."""
    record = plan_lines("stdout")
    at = 0
    for number, line in enumerate(plan_lines("stdin"), 1):
        if record[at:at + 1] != [line]:
            raise Wrong(f"line {number} of the script is not line {at + 1} of the output")
        begin = at = at + 1
        while at < len(record) and record[at].startswith(b"  "):
            at += 1
        yield line, record[begin:at]
    if at < len(record):
        raise Wrong(f"line {at + 1} of the output belongs to no line of the script")


def bytes_of(line):
    """The bytes after a line's words: between bars as they are, between quotes escaped."""
    _, _, text = line.partition(b" " + line[-1:])
    return unescaped(text[:-1]) if line.endswith(b'"') else text[:-1]


def with_line(world, number, change):
    lines = world.split(b"\n")
    lines[number - 1] = change(lines[number - 1])
    return b"\n".join(lines)


def changed(world, line):
    """The world that a line of the script runs, and the last world after that line."""
    words = line.split(b" ")
    if words[0] == b"line":
        return with_line(world, int(words[1]), lambda _: bytes_of(line)), world
    if words[0] == b"behind":
        return world + bytes_of(line), world
    if words[0] == b"grow":
        grown = with_line(world, int(words[2]), lambda own: own[:-1] + b"a" * int(words[4]) + b'"')
        return grown, grown
    return None, world


def rows():
    """Each world that is run over devices that do not fail, and the answer."""
    world, is_taken = b"", False
    for line, answer in answered():
        if line == b"world":
            world, is_taken = b"", True
        elif is_taken and line == b".":
            is_taken = False
            yield world, answer
        elif is_taken:
            world += line + b"\n"
        else:
            run, world = changed(world, line)
            if run is not None:
                yield run, answer


def shown_text(name, text):
    return [b"  " + name + (line[:-1] if line.endswith(b"\n") else line + b" (no line end)")
            for line in text.splitlines(keepends=True)]


def shown(ran):
    """What a run gave, as the transcript shows it."""
    status = b"  status %d" % ran.returncode
    return shown_text(b"", ran.stdout) + shown_text(b"error: ", ran.stderr) + [status]


def compare(tally, program):
    """Runs each world, up to the first whose output differs."""
    for world, answer in rows():
        found = shown(subprocess.run([program], input=world, capture_output=True, check=False))
        if found != answer:
            raise Wrong("\n".join(["this world (its first bytes)", world[:2000].decode("latin-1"), "wanted:",
                                   *[line.decode() for line in answer], "printed:", *[line.decode() for line in found]]))
        tally.passes()
    if tally.passed == 0:
        raise Wrong("no world was found")
    print(f"{tally.passed} worlds have their answers")


def main():
    words = parser_of(__doc__)
    words.add_argument("program", nargs="?", default=os.path.join(TOP, "bin", "mbplan"), help="bin/mbplan, if it is left out")
    words = words.parse_args()
    tally = Tally()
    with tally.until_wrong():
        compare(tally, words.program)
    tally.end()


if __name__ == "__main__":
    main()
