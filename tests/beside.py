#!/usr/bin/env python3
"""Runs mbsync beside another program that renames files in the same Maildir folder, as a mail reader does that marks messages.

Each run is one of mbsync over an INBOX whose messages are on both sides, with 1,000 or 10,000 of them, on a disk and in memory, with
Expunge None or Both, sometimes with flags that were set at the server. Meanwhile messages are marked as seen, or no longer, by new names:
one each 1, 5, 10 or 100 milliseconds, a hundred at once now and then, or some at a piece of the reading of `cur` (at_piece.c, which `cc`
has to build).

After each run no message may be gone on either side, none may be marked as deleted, each near one has the mark that the reader gave it,
and no error may be reported but `stopped` by files that were renamed. After a further run, with nothing beside it, both sides have these
marks and the server's flags. What both sides hold is read here, from the names of the files and from the server (scripted_server.py)."""
import collections
import contextlib
import os
import pathlib
import random
import shutil
import subprocess
import sys
import tempfile
import threading
import time

sys.path.insert(0, str(pathlib.Path(__file__).resolve().parents[1]))
from tests.support.edge_scene import Edge
from tests.support.explained import FINISHED
from tests.support.maildir_side import NAME
from tests.support.places import MBSYNC, TOP, must_run, parser_of
from tests.support.scene import Scene, near_text
from tests.support.tally import Tally

SOURCE = os.path.join(TOP, "tests", "support", "at_piece.c")
MEMORY = "/dev/shm"
CHANNEL = "\n".join(["", "Channel %s", "Far :far:", "Near :near:", "Expunge %s", ""])
# What may stop a run: files that are renamed while names are read, or before mbsync renames them itself.
BUSY = ("another program keeps renaming files", "it is gone. Run again")
# How many messages are marked at once, and the least and the greatest pause after that in seconds.
PACES = {"each 1 ms": (1, 0.001, 0.001), "each 5 ms": (1, 0.005, 0.005), "each 10 ms": (1, 0.01, 0.01), "each 100 ms": (1, 0.1, 0.1),
         "a hundred at once": (100, 0.01, 0.2)}
AT_PIECE = "at a piece"
# At least so many bytes of a piece, which has 32768, are those of one name.
NAME_SIZE = 48


def marked(name):
    """A name with the flag `\\Seen`, or without it if it was there."""
    front, _, letters = name.partition(":2,")
    return f"{front}:2,{''.join(sorted(set(letters) ^ {'S'}))}"


class Reader:
    """A mail reader: it knows the file of each message, and which ones it has marked as seen."""

    def __init__(self, folder):
        self.cur = os.path.join(folder, "cur")
        self.names = {}
        self.look()
        self.seen = {uid for uid, name in self.names.items() if "S" in name.partition(":2,")[2]}

    def look(self):
        """Learns the names of the files."""
        self.names.update((int(NAME.match(name)["uid"]), name) for name in os.listdir(self.cur))

    def mark(self, uid):
        """Marks a message as seen, or no longer. Where mbsync has renamed it just then, its name is learnt, and nothing else is done."""
        old = self.names[uid]
        try:
            os.rename(os.path.join(self.cur, old), os.path.join(self.cur, marked(old)))
        except FileNotFoundError:
            self.look()
            return
        self.names[uid] = marked(old)
        self.seen ^= {uid}


class Marking(threading.Thread):
    """Marks messages at random in a pace, until it is stopped."""

    def __init__(self, reader, rng, pace):
        super().__init__()
        self.reader, self.rng, self.pace, self.over = reader, rng, pace, threading.Event()

    def run(self):
        at_once, least, greatest = self.pace
        uids = list(self.reader.names)
        while not self.over.is_set():
            for _ in range(at_once):
                self.reader.mark(self.rng.choice(uids))
            self.over.wait(self.rng.uniform(least, greatest))

    def stop(self):
        self.over.set()
        self.join()


class Folder:
    """A home folder in this room in which INBOX has this many messages on both sides, and their server. The first pull is made in another
    room, and then moved."""

    def __init__(self, room, other, count):
        tempfile.tempdir = other
        self.room, self.other, self.count = room, other, count
        self.scene = Edge(*[b"Subject: %d\r\n\r\ntext\r\n" % number for number in range(1, count + 1)])
        with open(self.scene.path(".mbsyncrc"), "a", encoding="ascii") as file:
            file.write("".join(CHANNEL % channel for channel in (("None", "None"), ("Both", "Both"))))
        for _ in range(2):
            told = self.scene.run("c", most=1800)
            if told[0] != 0:
                sys.exit(f"the first run: {told[-3:]}")
        home = tempfile.mkdtemp(dir=room)
        shutil.copytree(self.scene.home, home, dirs_exist_ok=True)
        shutil.rmtree(self.scene.home)
        self.scene.home = home
        self.reader = Reader(self.scene.path("inbox"))

    def near(self):
        """The flags of each near message by UID, and what is wrong with the names."""
        letters, wrong = {}, []
        for part in ("new", "cur"):
            for name in os.listdir(self.scene.path("inbox/" + part)):
                found = NAME.match(name)
                if not found or not found["uid"] or int(found["uid"]) in letters:
                    wrong.append(f"the near file {part}/{name}")
                else:
                    letters[int(found["uid"])] = set(found["letters"] or "")
        return letters, wrong

    def far(self):
        """The flags of each far message by UID."""
        return {uid: set(letters) for uid, (letters, _) in self.scene.inbox().messages.items()}

    def wrong(self):
        """What is wrong with the messages of both sides: the UIDs of the first pull are those of the far side, and both begin with 1."""
        (near, wrong), far, uids = self.near(), self.far(), set(range(1, self.count + 1))
        for side, letters in (("near", near), ("far", far)):
            wrong += [f"{side} {uid} is gone" for uid in uids - set(letters)] + [f"{side} {uid} is new" for uid in set(letters) - uids]
            wrong += [f"{side} {uid} is marked as deleted" for uid, flags in letters.items() if "T" in flags]
        unlike = {uid for uid, flags in near.items() if "S" in flags} ^ self.reader.seen
        return wrong + [f"near {uid} lost what the reader did" for uid in unlike]

    def wrong_bytes(self):
        """Which messages have other bytes than at first."""
        first = {uid: b"Subject: %d\r\n\r\ntext\r\n" % uid for uid in range(1, self.count + 1)}
        near = {uid: data for uid, (_, data) in self.scene.near_messages().items()}
        wrong = [f"near {uid} has other bytes" for uid, data in first.items() if near.get(uid) != near_text(data)]
        far = {uid: data for uid, (_, data) in self.scene.far_messages().items()}
        return wrong + [f"far {uid} has other bytes" for uid, data in first.items() if far.get(uid) != data]


def wrong_lines(told):
    """What a run prints and must not."""
    wrong = [line for line in told[1:] if line.split(" ", 1)[0] in ("gone", "expunge", "drop", "void", "new", "found", "unfit")]
    wrong += [line for line in told[1:] if line.startswith("mbsync: ") and line != FINISHED and not line.endswith(": stopped")]
    is_busy = told[0] == 1 and any(text in told[-1] for text in BUSY)
    return wrong + ([] if told[0] == 0 or is_busy else [f"status {told[0]}: {told[-2:]}"])


def unlike(folder):
    """What is wrong after a further run, with nothing beside it. Where it has finished the plan of an earlier one, what has changed since
    then is the work of one more."""
    flagged = {uid for uid, flags in folder.far().items() if "F" in flags}
    told = folder.scene.run("None")
    if told[-1] == FINISHED:
        told = folder.scene.run("None")
    wrong = wrong_lines(told) + folder.wrong() + ([] if told[0] == 0 else [f"the further run: {told[-2:]}"])
    near, far = folder.near()[0], folder.far()
    if near != far or {uid for uid, flags in near.items() if "F" in flags} != flagged:
        wrong.append("the sides differ after the further run")
    return wrong


def flag_some(folder, rng):
    """Sets or takes a flag of some messages at the server."""
    box = folder.scene.inbox()
    for uid in rng.sample(sorted(box.messages), rng.choice([0, 0, 1, 20])):
        box.flag(uid, box.messages[uid][0] ^ {"F"})


def beside(folder, channel, rng, pace):
    """A run while messages are marked; what it prints, and how long it takes."""
    marking = Marking(folder.reader, rng, pace)
    marking.start()
    time.sleep(rng.random() * 0.05)
    start = time.monotonic()
    told = folder.scene.run(channel)
    seconds = time.monotonic() - start
    marking.stop()
    return told, seconds


def at_a_piece(folder, channel, rng, helper):
    """A run in which messages are marked after a piece of the reading of `cur`; what it prints, and how long it takes."""
    reader, names = folder.reader, folder.scene.path("names")
    with open(names, "w", encoding="ascii") as file:
        for uid in rng.sample(sorted(reader.names), rng.choice([1, 10, 100])):
            name = reader.names[uid]
            file.write(f"{os.path.join(reader.cur, name)}\n{os.path.join(reader.cur, marked(name))}\n")
    pieces = 1 + folder.count * NAME_SIZE // 32768
    folder.scene.program, start = helper, time.monotonic()
    told = folder.scene.run(str(rng.randrange(1, 2 * pieces + 2)), os.path.realpath(reader.cur), names, Scene.program, channel)
    seconds = time.monotonic() - start
    del folder.scene.program
    if os.path.exists(names + ".done"):
        with open(names + ".done", encoding="ascii") as file:
            reader.seen ^= {int(NAME.match(os.path.basename(path.rstrip("\n")))["uid"]) for path in file}
        os.remove(names + ".done")
    return told, seconds


def built_helper(room, tally):
    """The program that renames at a piece, or none if it cannot be built."""
    helper = os.path.join(room, "at_piece")
    try:
        subprocess.run(["cc", "-O1", "-o", helper, SOURCE], check=True)
    except (OSError, subprocess.CalledProcessError):
        tally.skip(AT_PIECE, "cc does not build at_piece.c")
        return None
    return helper


class Course:
    """The runs, and what they have come to: for each pace how many there were, how many were stopped, and their seconds."""

    def __init__(self, rooms, given):
        self.rng, self.tally = random.Random(given.seed), Tally()
        self.helper = built_helper(rooms[0], self.tally)
        self.paces = [*PACES, AT_PIECE] if self.helper else [*PACES]
        self.folders = [Folder(it, rooms[-1], count) for it in rooms for count in given.messages]
        self.runs, self.stopped, self.seconds = collections.Counter(), collections.Counter(), collections.Counter()

    def run(self, number):
        """One run, and the further one after it. Where something is wrong the folder is made anew."""
        place, channel = number % len(self.folders), self.rng.choice(["None", "Both"])
        folder = self.folders[place]
        pace = self.paces[number // len(self.folders) % len(self.paces)]
        flag_some(folder, self.rng)
        if pace == AT_PIECE:
            told, seconds = at_a_piece(folder, channel, self.rng, self.helper)
        else:
            told, seconds = beside(folder, channel, self.rng, PACES[pace])
        folder.reader.look()
        wrong = wrong_lines(told) + folder.wrong() + unlike(folder)
        folder.reader.look()
        self.runs[pace] += 1
        self.stopped[pace] += told[0] != 0
        self.seconds[pace] += seconds
        self.count(f"run {number}, {folder.count} messages in {folder.room}, Expunge {channel}, {pace}", wrong)
        if wrong:
            folder.scene.__exit__()
            self.folders[place] = Folder(folder.room, folder.other, folder.count)

    def count(self, name, wrong):
        """Counts a check, and prints what is wrong."""
        if wrong:
            self.tally.fails(f"{name}: {wrong[:5]}")
        else:
            self.tally.passes()

    def end(self):
        """Looks at the bytes of all messages, and prints what the runs have come to."""
        for folder in self.folders:
            self.count(f"the bytes of {folder.count} messages in {folder.room}", folder.wrong_bytes())
            folder.scene.__exit__()
        for pace, count in self.runs.items():
            print(f"{pace}: {count} runs, {self.stopped[pace]} stopped since files were renamed, {self.seconds[pace] / count:.2f} s each")
        print(f"{sum(self.runs.values())} runs, and the bytes of {len(self.folders)} folders")
        self.tally.end()


def main():
    words = parser_of(__doc__)
    words.add_argument("--program", default=MBSYNC, help="the built mbsync, if it is left out")
    words.add_argument("--runs", type=int, default=500)
    words.add_argument("--messages", type=int, nargs="+", default=[1000, 10000])
    words.add_argument("--seed", type=int, default=1)
    given = words.parse_args()
    Scene.program = os.path.abspath(given.program)
    must_run(Scene.program)
    with contextlib.ExitStack() as kept:
        places = [it for it in (tempfile.gettempdir(), MEMORY) if os.path.isdir(it)]
        rooms = [kept.enter_context(tempfile.TemporaryDirectory(prefix="beside-", dir=it)) for it in places]
        course = Course(rooms, given)
        for number in range(given.runs):
            course.run(number)
        course.end()


if __name__ == "__main__":
    main()
