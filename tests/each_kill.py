#!/usr/bin/env python3
"""Kills a run of mbsync at each of its system calls in turn.

strace counts the calls of a run, by their names, and then sends the signal where the k-th call of a name begins, for each name that
changes something or waits for something, and for each k. One run more has to end well, with both sides as they have to be, and a further
one has nothing to do. Two runs are tried: a first one that makes the near folder, and one with new messages, flags, and removals on both
sides, with Expunge. Needs strace."""
import os
import pathlib
import shutil
import subprocess
import sys
import tempfile

sys.path.insert(0, str(pathlib.Path(__file__).resolve().parents[1]))
from tests.support.configuration import configured
from tests.support.imap_side import KEYWORD_LINES, ImapSide
from tests.support.maildir_side import MaildirSide
from tests.support.measured import system_calls
from tests.support.messages import subjects
from tests.support.tally import Tally
from tests.support.trial_imapd import Server, program_over, world

NAMES = ["mkdir", "openat", "close", "read", "write", "rename", "unlink", "fsync", "flock", "getdents64", "connect", "sendto", "recvfrom"]
CHANNEL = """Channel box
Far :far:
Near :near:
Create Near
Expunge Both
""" + "".join(f"Keyword {line}\n" for line in KEYWORD_LINES)


def message(subject):
    return b"Subject: %s\r\n\r\ntext of %s\r\n" % (subject, subject)


class Place:
    """trial-imapd with four messages, and a folder that is not there yet."""

    def __init__(self, program, folder):
        self.folder = os.path.join(folder, "place")
        self.file = os.path.join(folder, "four.world")
        self.program = program
        with open(self.file, "wb") as text:
            text.write(world([message(subject) for subject in (b"one", b"two", b"three", b"four")], KEYWORD_LINES))
        self.server = None

    def renew(self):
        """Both sides as at first; gives the command of a run."""
        self.stop()
        shutil.rmtree(self.folder, ignore_errors=True)
        os.mkdir(self.folder)
        self.server = Server(self.file, 1000)
        self.server.connect().logout()
        configuration = os.path.join(self.folder, "mbsyncrc")
        with open(configuration, "w", encoding="ascii") as text:
            text.write(configured(self.server.port, self.folder, CHANNEL))
        return [self.program, "-c", configuration, "box"]

    def stop(self):
        if self.server:
            self.server.stop()

    def near(self):
        return MaildirSide(os.path.join(self.folder, "INBOX"))

    def sides(self):
        with ImapSide(self.server.port) as far:
            return subjects(far.messages()), subjects(self.near().messages())


def before_first_run(place):
    return place.renew()


def before_second_run(place):
    """A first run, and changes of each kind."""
    command = place.renew()
    subprocess.run(command, check=True, stdout=subprocess.DEVNULL)
    uids = {subject: uid for uid, _, data in place.near().messages() for subject, _ in subjects([(0, "", data)])}
    with ImapSide(place.server.port) as far:
        far.set_flags(1, frozenset(), frozenset("Fa"))
        far.remove(2)
        far.add(None, message(b"five"), frozenset("Sk"))
    near = place.near()
    near.set_flags(uids["one"], None, frozenset("Rk"))
    near.remove(uids["three"])
    near.set_flags(uids["four"], None, frozenset("T"))
    near.add("1700000000.six", message(b"six").replace(b"\r", b""), frozenset("Fa"))
    return command


FOUR = [("four", ""), ("one", ""), ("three", ""), ("two", "")]
CHANGED = [("five", "Sk"), ("one", "FRak"), ("six", "Fa")]


def killed(place, prepare, name, number, wanted):
    """What is wrong after a kill at this call, or none."""
    command = prepare(place)
    kill = ["-e", f"trace={name}", "-e", f"inject={name}:signal=KILL:when={number}"]
    subprocess.run(["strace", "-f", "-qq", "-o", os.devnull, *kill, *command], capture_output=True, check=False, timeout=120)
    done = subprocess.run(command, capture_output=True, text=True, check=False, timeout=120)
    if done.returncode != 0:
        return done.stdout + done.stderr
    if place.sides() != (wanted, wanted):
        return f"{done.stdout}{place.sides()}"
    done = subprocess.run(command, capture_output=True, text=True, check=False, timeout=120)
    return None if done.stdout == "box:INBOX\nran\n" else done.stdout + done.stderr


def try_each(tally, place, prepare, wanted):
    """Kills the run at each call."""
    counts = system_calls(prepare(place))
    if counts is None:
        sys.exit("strace cannot be used")
    for name in NAMES:
        for number in range(1, counts.get(name, 0) + 1):
            told = killed(place, prepare, name, number, wanted)
            if told is None:
                tally.passes()
            else:
                tally.fails(f"{prepare.__name__}, killed at {name} {number}: {told}")


def main():
    program = program_over(__doc__)
    tally = Tally()
    with tempfile.TemporaryDirectory() as folder:
        place = Place(program, folder)
        try:
            for name, prepare, wanted in (("a first run", before_first_run, FOUR), ("a run with all kinds of steps", before_second_run, CHANGED)):
                passed, failed = tally.passed, tally.failed
                try_each(tally, place, prepare, wanted)
                tried, wrong = tally.passed - passed + tally.failed - failed, tally.failed - failed
                print(f"{name}: {tried} kills, each at another system call, {wrong} went wrong", flush=True)
        finally:
            place.stop()
    tally.end()


if __name__ == "__main__":
    main()
