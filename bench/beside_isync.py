#!/usr/bin/env python3
"""Prints what mbsync takes beside isync for the same work over the same server, and how many times as much that is.

The server is trial-imapd, and both programs go through a go-between in this process that puts what isync asks into the words of the
profile. The works: a first pull of 1,000 messages of 3 KB; nothing to do at 10,000; 1,000 flags that were set at the server; 1,000 new
messages of the folder that are pushed; 1,050 of 2,000 messages that are gone from the folder, and are expunged at the server; where it is
named alone (`100,000`), nothing to do at 100,000, which takes half an hour. Each is done twice by each program: once valgrind counts instructions, and once strace counts system calls and syncs. Neither depends on the disk or on
what runs beside it. After each work both sides have to hold what they should. What was made before it is not counted."""
import os
import pathlib
import subprocess
import sys
import tempfile
from dataclasses import dataclass

sys.path.insert(0, str(pathlib.Path(__file__).resolve().parents[1]))
from bench.sync import CHANNEL, Boxes
from tests.support import trial_imapd
from tests.support.imap_side import ImapSide
from tests.support.measured import instructions, system_calls
from tests.support.messages import of_3_kb
from tests.support.places import parser_of
from tests.support.tally import Tally

EXPUNGING = CHANNEL + "Expunge Both\n"
SYNCS = ("fsync", "fdatasync")


@dataclass
class Work:
    """A work over a mailbox of so many messages: what changes before it, and how many messages and flagged ones both sides have then."""
    name: str
    count: int
    change: object
    messages: int
    flagged: int = 0
    is_first: bool = False


def nothing(_boxes):
    """No change."""


def flag_far(boxes):
    with ImapSide(boxes.server.port) as far:
        far.ask(b"UID STORE 1:1000 +FLAGS.SILENT (\\Flagged)")


def add_near(boxes):
    for number in range(1, 1001):
        boxes.near.add(f"1700000000.{number}.bench", of_3_kb(number).replace(b"\r\n", b"\n"), "")


def remove_near(boxes):
    for path, name in list(boxes.near.files()):
        if int(name["uid"]) <= 1050:
            os.remove(path)


WORKS = [Work("first pull of 1,000", 1000, nothing, 1000, is_first=True), Work("nothing to do at 10,000", 10000, nothing, 10000),
         Work("1,000 flags", 1000, flag_far, 1000, flagged=1000), Work("1,000 pushed", 0, add_near, 1000),
         Work("1,050 gone and expunged", 2000, remove_near, 950)]
LONG_WORKS = [Work("nothing to do at 100,000", 100000, nothing, 100000)]


def run(command):
    done = subprocess.run(command, stdin=subprocess.DEVNULL, capture_output=True, check=False)
    if done.returncode != 0:
        sys.exit(f"{command}: status {done.returncode}\n{(done.stdout + done.stderr)[-2000:].decode(errors='replace')}")


def far_side(boxes):
    """How many messages the server has, and how many of them are flagged."""
    with ImapSide(boxes.server.port) as far:
        rows = [row for row in far.ask(b"UID FETCH 1:* (UID FLAGS RFC822.SIZE)").split(b"\r\n") if row.startswith(b"* ")]
    return len(rows), sum(b"\\Flagged" in row for row in rows)


def near_side(boxes):
    flags = [name["letters"] or "" for _, name in boxes.near.files()]
    return len(flags), sum("F" in letters for letters in flags)


def done_once(tally, work, program, is_isync, count):
    """What is counted of the work, done by a program."""
    with tempfile.TemporaryDirectory() as top:
        boxes = Boxes(top, work.count, program, is_isync, True, EXPUNGING)
        try:
            # The second run takes up what the first one changed in the mailbox.
            for _ in range(0 if work.is_first else 2):
                run(boxes.command)
            work.change(boxes)
            counted = count(boxes.command)
            wanted = (work.messages, work.flagged)
            for side, found in (("far", far_side(boxes)), ("near", near_side(boxes))):
                if found != wanted:
                    tally.fails(f"{program}, {work.name}: the {side} side has {found}, and not {wanted}")
                else:
                    tally.passes()
            return counted
        finally:
            boxes.stop()


def costs(tally, work, program, is_isync):
    """What the work takes, by name."""
    found = {"instructions": done_once(tally, work, program, is_isync, instructions)}
    calls = done_once(tally, work, program, is_isync, system_calls)
    found["system calls"] = None if calls is None else sum(calls.values())
    found["syncs"] = None if calls is None else sum(calls.get(name, 0) for name in SYNCS)
    return found


def show(work, ours, theirs):
    for what, cost in ours.items():
        other = theirs[what]
        times = "" if not cost or not other else f"{cost / other:8.2f}"
        print("%-24s %-13s %14s %14s %s" % (work.name, what, told(cost), told(other), times), flush=True)


def told(cost):
    return "not counted" if cost is None else f"{cost:,}"


def main():
    tally = Tally()
    words = parser_of(__doc__)
    words.add_argument("names", nargs="*", help="only works with one of these in their names")
    words = trial_imapd.programs_beside(tally, words)
    print("%-24s %-13s %14s %14s %s" % ("", "", "mbsync", "isync", "quotient"))
    for work in [it for it in WORKS + LONG_WORKS if any(name in it.name for name in words.names)] if words.names else WORKS:
        show(work, costs(tally, work, words.program, False), costs(tally, work, words.isync, True))
    tally.end()


if __name__ == "__main__":
    main()
