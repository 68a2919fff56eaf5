#!/usr/bin/env python3
"""Refuses each allocation of a run in turn, and checks that the output is whole or that `no memory` is reported.

PROGRAM is mbplan with worlds for INPUT, or a program of tests (crates/tests_of_*) with a script of one library: those of
tests/few/*.txt, or any part of the stdin of its crate from a line `script NAME` on. For tests_of_runs INPUT may be trials too
(NAME.trial), as tests/few/trials/*, or `worlds`: the nine of tests/stops.py. It is run on each INPUT, once without a refusal and then
with the first allocation refused, with the second, and so on until a run meets no refusal. A run with a refusal has to give the
unbroken run's output and status, or nothing on standard output, `NAME: no memory` on standard error and status 1. In a script of
`server`, as tests/few/sessions.txt, a server may answer `no memory` itself: up to there the output has to be the unbroken run's, and
from there on the server is closed until the next connection. In one of `client`, as tests/few/client-calls.txt, a call may answer
`NoMemory`: up to there the case has to be the unbroken run's, from there on its calls are stopped or not made up to the next
connection, and the other cases are the unbroken run's. A trial may report `fault 8` and the world as it then is: another run over the same
devices has to come to the same end, as tests/support/wanting_trials.py says. Each allocation is a check."""
import os
import pathlib
import subprocess
import sys
import tempfile
from collections import Counter

sys.path.insert(0, str(pathlib.Path(__file__).resolve().parents[1]))
from tests.stops import WORLDS
from tests.support.places import must_run, parser_of
from tests.support.tally import Tally
from tests.support.wanting_trials import Wanting, script_of

SHIM = r"""
#include <stddef.h>
#include <stdlib.h>
#include <unistd.h>
void *__libc_malloc(size_t);
void *__libc_realloc(void *, size_t);
static long calls, refused;
__attribute__((constructor)) static void begin(void) {
    const char *text = getenv("REFUSED_ALLOCATION");
    refused = text ? atol(text) : 0;
}
static int is_refused(void) {
    if (refused <= 0 || ++calls != refused) return 0;
    (void)!write(198, "x", 1);
    return 1;
}
void *malloc(size_t n) { return is_refused() ? NULL : __libc_malloc(n); }
void *realloc(void *p, size_t n) { return is_refused() ? NULL : __libc_realloc(p, n); }
"""

# Lines of a script of `server` after which there is a connection again, or another server.
TO_CONNECT = (b"case", b"connect", b"server", b"loopback", b"stream")

# What comes in a script of `client` before a call.
TALK = (b"S: ", b"C: ", b"says ", b"sends ", b"breaks ", b"repeats ", b"unreachable")


def run(program, text, shim, number):
    """Status, standard output, standard error, and whether an allocation was refused."""
    reader, writer = os.pipe()
    os.dup2(writer, 198, inheritable=True)
    os.close(writer)
    env = {"LD_PRELOAD": shim, "REFUSED_ALLOCATION": str(number)}
    # A run that is refused memory may leave files: they go with the folder of the shim.
    at = os.path.dirname(shim)
    done = subprocess.run([program], input=text, capture_output=True, env=env, cwd=at, pass_fds=[198], timeout=120)
    os.close(198)
    met = os.read(reader, 1)
    os.close(reader)
    return done.returncode, done.stdout, done.stderr, bool(met)


def goes_on(whole, found):
    """Whether a server of a script of `server` reports `no memory`, goes as before up to there, and is closed until it is connected."""
    before, told, behind = found[1].partition(b"  no memory\n")
    if not whole[1].startswith(b"script server\n") or found[0] != 0 or found[2] != b"" or not told:
        return False
    lines = behind.split(b"\n")
    until = next((n for n, line in enumerate(lines) if line.startswith(TO_CONNECT)), len(lines))
    answers = [line for line in lines[:until] if line.startswith(b"  ") and b": validity " not in line]
    return whole[1].startswith(before) and all(line == b"  closed" for line in answers)


def answers_of(session):
    """The calls of a case of the client, each with its answer."""
    calls = []
    for line in session.split(b"\n"):
        if not line.startswith((b"  ", *TALK)):
            calls.append([line, None])
        elif line.startswith(b"  ") and not line.startswith((b"  sent ", b"  did not send ")):
            calls[-1][1] = line
    return calls


def is_stuck(call, answer):
    """Whether a call of the client is stopped or not made, or only hands its session on."""
    return answer in (b"  Stopped", b"  not made") or call.startswith(b"into_")


def goes_on_calling(whole, found):
    """Whether a call of a script of `client` reports `NoMemory`, and only those after it on its connection are stopped."""
    if not whole[1].startswith(b"script client\n") or found[0] != 0 or found[2] != b"":
        return False
    before, after = whole[1].split(b"\ncase "), found[1].split(b"\ncase ")
    changed = [place for place, session in enumerate(after) if session != before[place]]
    if len(before) != len(after) or len(changed) != 1:
        return False
    old, new = answers_of(before[changed[0]]), answers_of(after[changed[0]])
    first = next((place for place, call in enumerate(new) if call != old[place]), None)
    if first is None or new[first][1] != b"  NoMemory":
        return False
    for call, answer in new[first + 1 :]:
        if call in (b"open", b"reconnect") and answer == b"  done":
            return True
        if answer is not None and not is_stuck(call, answer):
            return False
    return True


def inputs_of(name):
    """The inputs of this name, each with its own name, and the trial that it plays if it is one."""
    if name == "worlds":
        return [(world, script_of(text + "tries 1\n").encode(), text + "tries 1\n") for world, text in WORLDS.items()]
    with open(name, "rb") as file:
        text = file.read()
    if name.endswith(".trial"):
        return [(name, script_of(text.decode()).encode(), text.decode())]
    return [(name, text, None)]


def check(tally, program, shim, world, text, trial):
    """Refuses each allocation of a run over this input."""
    whole = run(program, text, shim, 0)
    wanting = (1, b"", os.path.basename(program).encode() + b": no memory\n", True)
    wants = Wanting(program, trial, whole[1].decode()) if trial else None
    number = 0
    told = 0
    ends = Counter()
    while True:
        number += 1
        found = run(program, text, shim, number)
        if not found[3]:
            break
        if found == wanting:
            told += 1
            tally.passes()
            continue
        if found[:3] == whole[:3] or goes_on(whole, found) or goes_on_calling(whole, found):
            tally.passes()
            continue
        how = wants.how(found[0], found[1].decode(), found[2].decode()) if wants else None
        if how is None:
            tally.fails(f"{world}: allocation {number} refused: status {found[0]}, {found[1]!r}, {found[2]!r}")
        else:
            ends[how] += 1
            tally.passes()
    if number == 1:
        tally.fails(f"{world}: no allocation was met")
    others = "".join(f", {count} {how}" for how, count in sorted(ends.items()))
    print(f"{world}: {number - 1} allocations, of which {told} when refused end the run{others}", flush=True)


def main():
    words = parser_of(__doc__)
    words.add_argument("program", metavar="PROGRAM")
    words.add_argument("inputs", nargs="+", metavar="INPUT")
    words = words.parse_args()
    program = os.path.abspath(words.program)
    must_run(program)
    tally = Tally()
    with tempfile.TemporaryDirectory() as folder:
        source, shim = os.path.join(folder, "shim.c"), os.path.join(folder, "shim.so")
        with open(source, "w", encoding="ascii") as file:
            file.write(SHIM)
        subprocess.run(["cc", "-shared", "-fPIC", "-O1", "-o", shim, source], check=True)
        for name in words.inputs:
            for given in inputs_of(name):
                check(tally, program, shim, *given)
    tally.end()


if __name__ == "__main__":
    main()
