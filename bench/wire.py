#!/usr/bin/env python3
"""Prints how fast replies are read from memory, beside a plain search for line feeds in the same bytes.

One input is FETCH replies with UID, FLAGS and RFC822.SIZE, 10,000 and ten times as many; the other one FETCH reply with a
body of 16777216 bytes, and one of a tenth. Reading takes ten times as long for ten times the bytes.

The same bytes are then read as they would come over a connection: pushed to a buffer, scanned once, and read at each place
where the scanner stops; as one piece, and in pieces of 4096 bytes. Many pieces take about as long as one. tests_of_words makes and
reads them, by lines of a script of `wire` (crates/test_wire). All replies of each input have to be read."""
import pathlib
import re
import sys

sys.path.insert(0, str(pathlib.Path(__file__).resolve().parents[1]))
from tests.support.places import build, parser_of
from tests.support.played import play
from tests.support.tally import Tally

PROGRAM = "tests_of_words"
BODY = 16777216
ONE_PIECE = 4294967295


def measure(tally, name, made, replies):
    """The seconds of reading at once, as one piece and in many: the least of five runs each."""
    lines = ["clock", made, "read all", f"feed in pieces of {ONE_PIECE}", "feed in pieces of 4096", "line feeds"]
    best, answers = None, None
    for _ in range(5):
        answers, times = play(PROGRAM, "wire", lines)
        best = [min(pair) for pair in zip(best, times[2:])] if best else times[2:]
    told = {tuple(map(int, re.findall(r"\d+", answers[place][0])))[:2] for place in (2, 3, 4)}
    if len(told) != 1 or min(told)[0] != replies:
        tally.fails(f"{name}: not all was read: {answers}")
        tally.end()
    tally.passes()
    used = min(told)[1]
    reading, whole, pieces, scanning = best
    print("%-22s %7d replies %9d bytes  %8.4f s  %7.1f MB/s  %9.0f replies/s  line feeds alone %8.4f s"
          % (name, replies, used, reading, used / reading / 1e6, replies / reading, scanning))
    print("%-22s as one piece %8.4f s  %7.1f MB/s  in pieces of 4096 %8.4f s  %7.1f MB/s  ratio %.2f"
          % ("", whole, used / whole / 1e6, pieces, used / pieces / 1e6, pieces / whole))
    return reading


def main():
    parser_of(__doc__).parse_args()
    build(PROGRAM)
    tally = Tally()
    few, many = (measure(tally, f"{count:,} listings", f"listings {count}", count) for count in (10000, 100000))
    print("ten times the listings take %.1f times as long" % (many / few))
    small, large = measure(tally, "a body of 1.6 MB", f"body {BODY // 10}", 1), measure(tally, "a body of 16 MB", f"body {BODY}", 1)
    print("ten times the body takes %.1f times as long" % (large / small))
    tally.end()


if __name__ == "__main__":
    main()
