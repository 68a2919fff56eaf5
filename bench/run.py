#!/usr/bin/env python3
"""Prints what runs over large mailboxes in memory cost, through mbtrial.

1,000, 10,000 and 100,000 messages of 3 KB (or up to N) are pulled into an empty near mailbox. What that run leaves is the world of a run
with nothing to do, and of one before which 1% of the far messages got a flag. Each has its seconds, on the clock and of the processor, its
greatest memory, and how many times the work of the processor it is of the size before, which has to be at most 12. The costs are those of
the whole program: the text is read and written, client and server speak IMAP, folder and shelf are in memory. A run whose steps are not
those that it should have ends the script. Run it with nothing beside it."""
import os
import pathlib
import re
import sys
import tempfile

sys.path.insert(0, str(pathlib.Path(__file__).resolve().parents[1]))
from tests.support.measured import measured
from tests.support.places import built, must_run, parser_of
from tests.support.tally import Tally

SIZES = (1000, 10000, 100000)
LIMIT = 12
OPTIONS = b"sync Full\nexpunge None\n"
BODY = (b"0123456789" * 6 + b"\\0d\\0a") * 47


def first_world(count):
    """The text of a far mailbox of so many messages and an empty near one, in pieces."""
    yield OPTIONS + b"far 1 %d\n" % (count + 1)
    for n in range(1, count + 1):
        yield b'f %d - "From: a@example.org\\0d\\0aSubject: %d\\0d\\0a\\0d\\0a%s"\n' % (n, n, BODY)
    yield b"near 1 1\nstate 0 0 0 0 0\nend\ntries 1\n"


def next_world(result, count, is_flagged):
    """The world that a run has printed, line by line; if asked, every hundredth far message of it has got a flag."""
    result.seek(0)
    yield OPTIONS
    is_world = False
    for line in result:
        is_world = is_world or line.startswith(b"far ")
        if is_world:
            found = re.match(rb"f (\d+) - ", line) if is_flagged else None
            yield b"f %s F %s" % (found[1], line[found.end():]) if found and int(found[1]) % 100 == 0 else line
    yield b"tries 1\n"


def steps_of(result):
    """How often each kind of step was told."""
    counts = {}
    result.seek(0)
    if result.readline() != b"settled ran 0\n":
        sys.exit("the run is not settled")
    for line in result:
        if line.startswith(b"far "):
            return counts
        kind = b" ".join(line.split()[:2]).decode()
        counts[kind] = counts.get(kind, 0) + 1
    sys.exit("no world is told")


def run(program, pieces, wanted):
    """The cost of a run over a world, and what it printed. The steps have to be these."""
    result = tempfile.TemporaryFile()
    with tempfile.TemporaryFile() as source:
        source.writelines(pieces)
        source.flush()
        source.seek(0)
        size = os.fstat(source.fileno()).st_size
        cost = measured([program], source, result)
    steps = steps_of(result)
    if steps != wanted:
        sys.exit(f"steps {steps} in place of {wanted}")
    return cost, size, result


def works(program, count):
    """Each work with its cost and the bytes of its text."""
    cost, size, left = run(program, first_world(count), {"new pull": count})
    yield "first pull", cost, size
    for work, is_flagged, wanted in (("nothing to do", False, {}), ("1% of the flags", True, {"flags pull": count // 100})):
        cost, size, _ = run(program, next_world(left, count, is_flagged), wanted)
        yield work, cost, size


def main():
    words = parser_of(__doc__)
    words.add_argument("program", nargs="?", default=built("mbtrial"), help="the built mbtrial, if it is left out")
    words.add_argument("--most", type=int, default=SIZES[-1], metavar="N")
    asked = words.parse_args()
    must_run(asked.program)
    tally, before = Tally(), {}
    for count in [size for size in SIZES if size <= asked.most]:
        for work, cost, size in works(asked.program, count):
            times = cost.processor / before[work] if work in before else None
            before[work] = cost.processor
            told = "" if times is None else f"  {times:.1f} times" + (f", past {LIMIT}" if times > LIMIT else "")
            print("%7d messages  %-16s %7.1f MB of text %9.2f s %9.2f s of the processor %8.1f MB%s"
                  % (count, work, size / 1e6, cost.seconds, cost.processor, cost.peak, told), flush=True)
            if times is not None:
                tally.check(f"{count} messages, {work}: at most {LIMIT} times the work", times <= LIMIT)
    tally.end()


if __name__ == "__main__":
    main()
