#!/usr/bin/env python3
"""Prints what a run costs in which nothing is to be done over 33 mailboxes, beside isync over the same server.

The server is trial-imapd; both programs go through a go-between in this process, which puts what isync asks into the words of the
profile. Each mailbox has ten messages of 3 KB, which a first run of each program pushes from folders of its own. Then both run in turn,
and the median of their seconds on the clock is printed, with the syncs of one run. TMPDIR names the folder in which it measures: the
time is that of its disk. Run it with nothing beside it."""
import os
import pathlib
import statistics
import subprocess
import sys
import tempfile

sys.path.insert(0, str(pathlib.Path(__file__).resolve().parents[1]))
from tests.support import trial_imapd
from tests.support.configuration import ISYNC_ONLY, imap_store, maildir_store
from tests.support.go_between import GoBetween
from tests.support.maildir_side import MaildirSide
from tests.support.measured import measured, system_calls
from tests.support.messages import of_3_kb
from tests.support.places import parser_of
from tests.support.tally import Tally

MAILBOXES, MESSAGES, RUNS = 33, 10, 15
CHANNEL = "Channel bench\nFar :far:\nNear :near:\nPatterns * INBOX\nCreate Far\nSyncState *\n"


class Place:
    """A server, folders of a program, and the command that synchronises them."""

    def __init__(self, top, program, is_isync):
        world = os.path.join(top, "bench.world")
        with open(world, "wb") as text:
            text.write(trial_imapd.world([]))
        self.server = trial_imapd.Server(world, 65535)
        self.server.connect().logout()
        self.between = GoBetween(self.server.port)
        self.boxes = [MaildirSide(os.path.join(top, "mail", name)) for name in names()]
        for number, box in enumerate(self.boxes):
            for message in range(MESSAGES):
                box.add(f"1700000000.{number}_{message}.bench", of_3_kb(message).replace(b"\r\n", b"\n"), "")
        configuration = os.path.join(top, "mbsyncrc")
        with open(configuration, "w", encoding="ascii") as text:
            store = imap_store(self.between.port, more=ISYNC_ONLY if is_isync else "")
            text.write(store + maildir_store(f"{top}/mail", f"{top}/mail/INBOX", more="SubFolders Verbatim\n") + CHANNEL)
        self.command = [program, "-c", configuration, "bench"]

    def begin(self, tally):
        """The first two runs; all messages have to have UIDs then."""
        for _ in range(2):
            subprocess.run(self.command, stdin=subprocess.DEVNULL, capture_output=True, check=True)
        found = sum(1 for box in self.boxes for _, name in box.files() if name["uid"])
        if found != MAILBOXES * MESSAGES:
            tally.fails(f"{self.command}: {found} messages have UIDs")
            tally.end()
        tally.passes()

    def stop(self):
        self.between.stop()
        self.server.stop()


def names():
    return ["INBOX", *(f"box{number}" for number in range(1, MAILBOXES))]


def main():
    tally = Tally()
    words = trial_imapd.programs_beside(tally, parser_of(__doc__))
    with tempfile.TemporaryDirectory() as ours, tempfile.TemporaryDirectory() as theirs:
        places = [Place(ours, words.program, False), Place(theirs, words.isync, True)]
        try:
            for place in places:
                place.begin(tally)
            seconds = [statistics.median(times) for times in zip(*[[measured(it.command).seconds for it in places] for _ in range(RUNS)])]
            for name, place, took in zip(("mbsync", "isync"), places, seconds):
                counts = system_calls(place.command) or {}
                print("%-8s %6.3f s %4d syncs" % (name, took, sum(counts.get(it, 0) for it in ("fsync", "fdatasync"))), flush=True)
            print("%-8s %6.2f" % ("quotient", seconds[0] / seconds[1]))
        finally:
            for place in places:
                place.stop()
    tally.end()


if __name__ == "__main__":
    main()
