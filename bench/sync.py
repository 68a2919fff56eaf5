#!/usr/bin/env python3
"""Prints what mbsync costs over trial-imapd, beside isync on the same mailboxes if it is installed.

A mailbox of 10,000 messages of 3 KB is pulled into an empty folder. Then come the run after that, a run with nothing to do, and one
before which 1% of the far messages got a flag. Each has its seconds, on the clock and of the processor, and its greatest memory; in
separate runs over 1,000 messages strace counts syncs and system calls a message. Then mbsync alone shows how this grows, at 1,000, 10,000
and 100,000 messages, or up to N. After each pull and each flag all messages have to be there.

isync does not speak the profile of IMAP4rev2 that trial-imapd takes. So it goes through a go-between in this process, which puts what it
asks into the profile's words, and mbsync is measured through it once more, so that the two can be compared. If isync is missing, that is
printed. TMPDIR names the folder in which it measures. Run it with nothing beside it."""
import os
import pathlib
import sys
import tempfile

sys.path.insert(0, str(pathlib.Path(__file__).resolve().parents[1]))
from tests.support.configuration import ISYNC_ONLY, configured
from tests.support.go_between import GoBetween
from tests.support.imap_side import ImapSide
from tests.support.maildir_side import MaildirSide
from tests.support.measured import measured, system_calls
from tests.support.messages import of_3_kb
from tests.support.places import MBSYNC, must_run, parser_of
from tests.support.tally import Tally
from tests.support.trial_imapd import Server, build, world

COMPARED = 10000
COUNTED = 1000
SIZES = (1000, 10000, 100000)
CHANNEL = """Channel bench
Far :far:
Near :near:
SyncState *
"""


TALLY = Tally()


class Boxes:
    """trial-imapd with so many messages, an empty folder, and the command that synchronises them."""

    def __init__(self, top, count, program, is_isync, through_go_between, channel=CHANNEL):
        self.count = count
        file = os.path.join(top, "bench.world")
        with open(file, "wb") as text:
            text.write(world([of_3_kb(n) for n in range(1, count + 1)]))
        self.server = Server(file, 65535)
        self.server.connect().logout()
        self.between = GoBetween(self.server.port) if through_go_between else None
        self.near = MaildirSide(os.path.join(top, "INBOX"))
        configuration = os.path.join(top, "mbsyncrc")
        with open(configuration, "w", encoding="ascii") as text:
            port = self.between.port if self.between else self.server.port
            text.write(configured(port, top, channel, ISYNC_ONLY if is_isync else ""))
        self.command = [program, "-c", configuration, "bench"]

    def change_flags(self, sign):
        """Sets or takes away a flag of 1% of the far messages."""
        with ImapSide(self.server.port) as far:
            far.ask(b"UID STORE 1:%d %sFLAGS.SILENT (\\Flagged)" % (self.count // 100, sign))

    def check(self, flagged):
        """All messages have to be there, and so many with the flag."""
        flags = [name["letters"] or "" for _, name in self.near.files()]
        found = (len(flags), sum("F" in letters for letters in flags))
        if found != (self.count, flagged):
            TALLY.fails(f"{self.command}: {found[0]} messages, {found[1]} with the flag")
            TALLY.end()
        TALLY.passes()

    def stop(self):
        if self.between:
            self.between.stop()
        self.server.stop()


def works(boxes, run):
    """Each work, with what a run of the command gives."""
    found = [("first pull", run(boxes.command))]
    boxes.check(0)
    found.append(("the run after it", run(boxes.command)))
    found.append(("nothing to do", run(boxes.command)))
    boxes.change_flags(b"+")
    found.append(("1% of the flags", run(boxes.command)))
    boxes.check(boxes.count // 100)
    return found


def over(count, run, program, is_isync=False, through_go_between=False):
    with tempfile.TemporaryDirectory() as top:
        boxes = Boxes(top, count, program, is_isync, through_go_between)
        try:
            return works(boxes, run)
        finally:
            boxes.stop()


def show_calls(counts, messages):
    if counts is None:
        return "not counted, strace cannot be used"
    syncs = sum(number for name, number in counts.items() if name in ("fsync", "fdatasync"))
    often = sorted((name for name in counts if counts[name] >= messages / 10), key=lambda name: -counts[name])
    some = ", ".join("%s %.2f" % (name, counts[name] / messages) for name in often[:6])
    return "%d syncs, %.2f calls a message%s" % (syncs, sum(counts.values()) / messages, f" ({some})" if some else "")


def compare(name, program, **how):
    """Rows of one program: what each work costs, and its system calls."""
    for work, cost in over(COMPARED, measured, program, **how):
        print("%-28s %-16s %8.2f s %8.2f s of the processor %7.1f MB" % (name, work, cost.seconds, cost.processor, cost.peak), flush=True)
    for work, counts in over(COUNTED, system_calls, program, **how):
        print("%-28s %-16s %s" % (name, work, show_calls(counts, COUNTED)), flush=True)


def grow(program, most):
    before = {}
    for count in [size for size in SIZES if size <= most]:
        for work, cost in over(count, measured, program):
            ratio = "" if work not in before else ", %.1f times the work of the processor" % (cost.processor / before[work])
            before[work] = cost.processor
            print("%7d messages %-16s %8.2f s %8.2f s of the processor %7.1f MB%s"
                  % (count, work, cost.seconds, cost.processor, cost.peak, ratio), flush=True)


def main():
    words = parser_of(__doc__)
    words.add_argument("--program", default=MBSYNC, help="the built mbsync, if it is left out")
    words.add_argument("--isync", default="/usr/bin/mbsync", help="/usr/bin/mbsync, if it is left out")
    words.add_argument("--most", type=int, default=SIZES[-1], metavar="N")
    words = words.parse_args()
    must_run(words.program)
    build()
    print(f"{COMPARED} messages of 3 KB; system calls over {COUNTED}")
    compare("mbsync", words.program)
    compare("mbsync, through go-between", words.program, through_go_between=True)
    if os.access(words.isync, os.X_OK):
        compare("isync, through go-between", words.isync, is_isync=True, through_go_between=True)
    else:
        TALLY.skip("isync", f"it is not installed at {words.isync}")
    grow(words.program, words.most)
    TALLY.end()


if __name__ == "__main__":
    main()
