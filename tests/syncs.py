#!/usr/bin/env python3
"""Looks in which order a run of mbsync makes what it writes outlive a loss of power, as docs/DECISIONS.md says.

Six runs over trial-imapd are traced by strace: one that pulls three messages and takes over a file that was left in `new`, one that
removes a message and changes a flag, one with nothing to do after each of these, one that resumes the plan of a run that was killed, and
one that pushes a file to which a run that was killed had given its UID. Each order is a line of the output."""
import os
import pathlib
import re
import shutil
import subprocess
import sys
import tempfile

sys.path.insert(0, str(pathlib.Path(__file__).resolve().parents[1]))
from tests.support.configuration import configured
from tests.support.imap_side import ImapSide
from tests.support.tally import Tally
from tests.support.trial_imapd import Server, program_over, world

CALLS = "fsync,fdatasync,rename,renameat,renameat2,unlink,unlinkat,write,pwrite64"
ROW = re.compile(r"^\d+ +(\w+)\((.*)\) += (-?\d+)")
OPENED = re.compile(r"^\d+<([^>]*)>")
NAMED = re.compile(r'"((?:[^"\\]|\\.)*)"')
CHANNEL = "Channel bench\nFar :far:\nNear :near:\nSyncState *\nExpunge Both\n"


class Trace:
    """What a run did to the files of its mailbox, in order: (`sync`, path), (`write`, path), (`rename`, from, to), (`remove`, path)."""

    def __init__(self, box, rows):
        self.box, self.events = box, []
        for row in rows:
            found = ROW.match(row)
            if found and int(found[3]) >= 0:
                self.add(found[1], found[2])

    def add(self, call, words):
        names = [os.path.relpath(name, self.box) for name in NAMED.findall(words)]
        if call in ("fsync", "fdatasync", "write", "pwrite64"):
            path = OPENED.match(words)
            if path and path[1].startswith(self.box):
                self.events.append(("sync" if "sync" in call else "write", os.path.relpath(path[1], self.box)))
        elif call.startswith("rename"):
            self.events.append(("rename", names[0], names[1]))
        else:
            self.events.append(("remove", names[0]))

    def places(self, is_it):
        return [place for place, event in enumerate(self.events) if is_it(event)]

    def synced(self, path, start, end):
        """Whether this file or folder is synced between two places."""
        return ("sync", path) in self.events[start + 1:end]


def in_mailbox(event):
    """A message's file gets its name, another name, or goes."""
    return event[0] in ("rename", "remove") and event[-1].split("/")[0] in ("cur", "new")


def is_copy(event):
    return event[0] == "rename" and event[1] == "tmp/mbsync.copy"


def look(tally, name, trace, copies, changes):
    plan = trace.places(lambda event: event == ("write", ".mbsyncstate.journal"))[0]
    state = trace.places(lambda event: event == ("rename", ".mbsyncstate.new", ".mbsyncstate"))[0]
    names = trace.places(in_mailbox)
    made = trace.places(is_copy)
    tally.check(f"{name}: {copies} copies are made, and {changes} names change", (len(made), len(names)) == (copies, changes))
    for place in made:
        written = max(it for it in trace.places(lambda event: event == ("write", "tmp/mbsync.copy")) if it < place)
        tally.check(f"{name}: a copy's bytes are synced before it gets its name", trace.synced("tmp/mbsync.copy", written, place))
    folders = ("cur", "new", ".")
    before = max([place for place in names if place < plan], default=-1)
    tally.check(f"{name}: names that were given are synced before the plan is written", all(trace.synced(it, before, plan) for it in folders))
    step = min([place for place in names if place > plan], default=state)
    tally.check(f"{name}: the plan is synced before its first step", trace.synced(".mbsyncstate.journal", plan, step))
    last = max([place for place in names if place < state], default=-1)
    tally.check(f"{name}: all names are synced before the state is replaced", all(trace.synced(it, last, state) for it in folders))
    look_at_state(tally, name, trace)


def look_at_state(tally, name, trace):
    state = trace.places(lambda event: event == ("rename", ".mbsyncstate.new", ".mbsyncstate"))[0]
    gone = trace.places(lambda event: event == ("remove", ".mbsyncstate.journal"))[-1]
    written = max(trace.places(lambda event: event == ("write", ".mbsyncstate.new")))
    tally.check(f"{name}: the state's bytes are synced before it gets its name", trace.synced(".mbsyncstate.new", written, state))
    tally.check(f"{name}: the state's name is synced before the journal goes", trace.synced(".", state, gone))


def look_idle(tally, name, trace):
    tally.check(f"{name}: no name changes", not trace.places(in_mailbox))
    synced = [event[1] for event in trace.events if event[0] == "sync"]
    tally.check(f"{name}: the state and its name are synced, and no more", synced == [".mbsyncstate.new", "."])
    look_at_state(tally, name, trace)


def look_resumed(tally, trace):
    first = min(trace.places(lambda event: in_mailbox(event) or event == ("write", "tmp/mbsync.copy")))
    tally.check("resumed: the journal that was read is synced before the next step", trace.synced(".mbsyncstate.journal", -1, first))
    tally.check("resumed: so are the names beside it", trace.synced(".", -1, first))


def kill_at(calls, when, program, rc):
    """Kills a run when it makes one of these calls for this time."""
    command = ["strace", "-f", "-e", f"trace={CALLS}", "-e", f"inject={calls}:signal=KILL:when={when}", "-o", os.devnull]
    subprocess.run([*command, program, "-c", rc, "bench"], stdin=subprocess.DEVNULL, capture_output=True, check=False)


def traced(program, rc, box):
    with tempfile.NamedTemporaryFile("r", errors="replace") as log:
        command = ["strace", "-f", "-y", "-s", "4096", "-e", f"trace={CALLS}", "-o", log.name, program, "-c", rc, "bench"]
        done = subprocess.run(command, stdin=subprocess.DEVNULL, capture_output=True, text=True, check=False)
        if done.returncode != 0:
            sys.exit(f"{program}: status {done.returncode}: {done.stderr[-500:]}")
        return Trace(box, log.read().splitlines())


def scenes(tally, program, top):
    box = os.path.join(os.path.realpath(top), "mail", "INBOX")
    for part in ("cur", "new", "tmp"):
        os.makedirs(os.path.join(box, part))
    with open(os.path.join(box, "new", "1.left"), "wb") as file:
        file.write(b"Subject: left\n\nleft\n")
    text, rc = os.path.join(top, "far.world"), os.path.join(top, "rc")
    with open(text, "wb") as file:
        file.write(world([b"Subject: %d\r\n\r\nbody\r\n" % n for n in range(3)]))
    server = Server(text, 60000)
    try:
        with open(rc, "w", encoding="ascii") as file:
            file.write(configured(server.port, os.path.dirname(box), CHANNEL))
        server.connect().logout()
        look(tally, "first run", traced(program, rc, box), copies=3, changes=4)
        look_idle(tally, "nothing to do after it", traced(program, rc, box))
        with ImapSide(server.port) as far:
            far.ask(b"UID STORE 1 +FLAGS.SILENT (\\Seen)")
            far.ask(b"UID STORE 2 +FLAGS.SILENT (\\Deleted)")
            far.ask(b"UID EXPUNGE 2")
        look(tally, "changes", traced(program, rc, box), copies=0, changes=3)
        look_idle(tally, "nothing to do after that", traced(program, rc, box))
        with ImapSide(server.port) as far:
            for number in (4, 5):
                far.add(None, b"Subject: %d\n\nbody\n" % number, frozenset())
        kill_at("rename,renameat,renameat2", 1, program, rc)  # when the first copy gets its name
        tally.check("a run that is killed leaves its plan", os.path.getsize(os.path.join(box, ".mbsyncstate.journal")) > 0)
        look_resumed(tally, traced(program, rc, box))
        with open(os.path.join(box, "new", "2.left"), "wb") as file:
            file.write(b"Subject: also left\n\nleft\n")
        kill_at("fsync,fdatasync", 2, program, rc)  # after the meta file, when names would be synced
        left = [name for part in ("cur", "new") for name in os.listdir(os.path.join(box, part)) if name.startswith("2.left")]
        tally.check("a run that is killed before its plan leaves a file with a UID", len(left) == 1 and ",U=" in left[0])
        look(tally, "after a run that was killed before its plan", traced(program, rc, box), copies=0, changes=0)
    finally:
        server.stop()


def main():
    program = program_over(__doc__)
    if shutil.which("strace") is None:
        sys.exit("strace is not installed")
    tally = Tally()
    with tempfile.TemporaryDirectory() as top, tally.scene("the six runs"):
        scenes(tally, program, top)
    tally.end()


if __name__ == "__main__":
    main()
