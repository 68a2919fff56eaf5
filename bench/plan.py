#!/usr/bin/env python3
"""Prints the seconds and the peak memory of mbplan on large worlds.

Worlds have up to 1,000,000 messages on each side, half of them paired. One has a single message of 16777216 bytes. Ten times as many
messages have to take at most 12 times as long, and a world of 100,000 messages on each side or more at most 6 times as much memory as its
text."""
import os
import pathlib
import resource
import subprocess
import sys
import tempfile
import time

sys.path.insert(0, str(pathlib.Path(__file__).resolve().parents[1]))
from bench.memory import peak
from tests.support.places import TOP, parser_of
from tests.support.tally import Tally

BIGGEST = 16777216
MOST_TIMES_AS_LONG = 12
MOST_TIMES_THE_TEXT = 6


def mail(n):
    """The escaped text of a message: two lines of header and one of body, each ended by CR LF as those of mail are."""
    return "From: news@example.org\\0d\\0aSubject: day %d\\0d\\0a\\0d\\0aNothing newer was told.\\0d\\0a" % n


def many(count):
    """Half of the messages of each side are paired, the first of far with the last of that half of near."""
    half = count // 2
    lines = ["sync Full", "expunge Both", "far 1 %d" % (count + 1)]
    lines += ['f %d %s "%s"' % (n, "S" if n % 3 else "FS", mail(n)) for n in range(1, count + 1)]
    lines.append("near 1 %d" % (count + 1))
    lines += ['n %d %s "%s"' % (n, "F" if n % 5 else "-", mail(half + 1 - n if n <= half else n)) for n in range(1, count + 1)]
    lines.append("state 7 1 1 %d %d" % (half, half))
    lines += ["e %d %d S" % (n, half + 1 - n) for n in range(1, half + 1)]
    return "\n".join(lines + ["end", ""]).encode()


def biggest():
    text = b"Subject: big\\0d\\0a\\0d\\0a"
    body = b"x" * (BIGGEST - 16)
    return (b'sync Full\nexpunge None\nfar 1 2\nf 1 - "' + text + body + b'"\nnear 1 1\nstate 0 0 0 0 0\nend\n')


def timed(program, world):
    """The seconds of the clock and of the processor that a run takes, and how many lines it prints."""
    before = resource.getrusage(resource.RUSAGE_CHILDREN).ru_utime
    start = time.monotonic()
    ran = subprocess.run([program], input=world, stdout=subprocess.PIPE, check=True)
    seconds = time.monotonic() - start
    return seconds, resource.getrusage(resource.RUSAGE_CHILDREN).ru_utime - before, ran.stdout.count(b"\n")


def measure(program, name, world):
    """Prints what a world takes, and gives its seconds of the processor and how many times its text the memory is. The
    seconds are the least of five runs."""
    runs = [timed(program, world) for _ in range(5)]
    seconds, processor, lines = min(it[0] for it in runs), min(it[1] for it in runs), runs[0][2]
    with tempfile.TemporaryFile() as source:
        source.write(world)
        source.seek(0)
        memory = peak([program], source)
    times = memory / len(world)
    print("%-34s %9d bytes of text  %7d lines of plan  %5.2f s  %5.2f s of processor  %6.1f MB, %6.1f times the text"
          % (name, len(world), lines, seconds, processor, memory / 1e6, times))
    return processor, times


def main():
    words = parser_of(__doc__)
    words.add_argument("program", nargs="?", default=os.path.join(TOP, "bin", "mbplan"), help="bin/mbplan, if it is left out")
    program = words.parse_args().program
    measure(program, "200 messages a side", many(200))
    measure(program, "2,000 messages a side", many(2000))
    few, times_few = measure(program, "100,000 messages a side", many(100000))
    more, times_more = measure(program, "1,000,000 messages a side", many(1000000))
    measure(program, "a message of 16777216 bytes", biggest())
    print("ten times as many messages take %.1f times as long (at most %d are asked), and at most %.1f times as much memory"
          " as the text (%d are asked)" % (more / few, MOST_TIMES_AS_LONG, max(times_few, times_more), MOST_TIMES_THE_TEXT))
    tally = Tally()
    tally.check(f"at most {MOST_TIMES_AS_LONG} times as long", more <= MOST_TIMES_AS_LONG * few)
    tally.check(f"at most {MOST_TIMES_THE_TEXT} times the text", max(times_few, times_more) <= MOST_TIMES_THE_TEXT)
    tally.end()


if __name__ == "__main__":
    main()
