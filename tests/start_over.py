#!/usr/bin/env python3
"""Starts over with mailboxes by bin/mbsync-start-over: no message comes twice, what was near alone is kept and sent once, whatever run was
unfinished, and wherever the command is killed.

The server is in this process, the folders are made for the run."""
import fcntl
import os
import pathlib
import shutil
import sys
import tempfile

sys.path.insert(0, str(pathlib.Path(__file__).resolve().parents[1]))
from tests.support import places
from tests.support.begun import COMMAND, FAR, Begun, is_once, message
from tests.support.converted import command_of, killed_at
from tests.support.edge_scene import Edge
from tests.support.scripted_server import Box
from tests.support.tally import Tally


# ---- unfinished runs

def copies_in_the_journal(tally):
    """A first run was cut after each of its copies; the server has a new UIDVALIDITY since."""
    for cut in range(1, 7):
        with Begun() as scene:
            scene.run("c", "--gone")
            scene.breaks_at(cut)
            scene.add_near("1.unsent", "unsent")
            told = scene.run("c")
            tally.check(f"cut at copy {cut}: the run is unfinished", told[0] == 1 and ".mbsyncstate.journal" in scene.texts(), told)
            scene.make_anew()
            told = scene.run("c")
            tally.check("the server was made anew", "mbsync: c:INBOX: validity changed far" in told, told)
            told = scene.start_over("c")
            tally.same("started over", [told[0], [line.rpartition("/")[2] for line in told[1:] if line.startswith("put back")]], [0, ["1.unsent"]])
            is_once(tally, f"cut at copy {cut}", scene, *FAR, "unsent")


def a_push_without_its_reply(tally):
    """The server has kept a message, and its reply was lost."""
    with Begun() as scene:
        scene.run("c")
        for number, name in enumerate(("one", "two", "three"), 1):
            scene.add_near(f"{number}.new", name)
        added = []

        def cut(talk, _):
            added.append(1)
            if len(added) == 2:
                scene.breaks_at(0)
                talk.hang_up()
            return len(added) == 2
        scene.server.added = cut
        told = scene.run("c")
        tally.check("the run is cut", told[0] == 1, told)
        scene.make_anew()
        told = scene.start_over("c")
        back = [line.rpartition("/")[2] for line in told[1:] if line.startswith("put back")]
        tally.same("started over, the one that was not sent is put back", [told[0], back], [0, ["3.new"]])
        is_once(tally, "a push without its reply", scene, *FAR, "one", "two", "three")


def bad_states(tally):
    """The state is damaged, gone, or isync's; files say nothing of what was on both sides but by what they are."""
    for what, change in (("damaged", lambda text: text.replace("end\n", "")), ("a line damaged", lambda text: text.replace("e 2 ", "e x ")),
                         ("empty", lambda _: ""), ("bytes", lambda text: text + "\udcff\n"), ("gone", None)):
        with Begun() as scene:
            scene.run("c")
            state = scene.path("inbox/.mbsyncstate")
            scene.add_near("1.unsent", "unsent")
            with open(state, encoding="ascii") as file:
                text = file.read()
            os.remove(state)
            if change:
                scene.write("inbox/.mbsyncstate", change(text).encode("ascii", "surrogateescape"))
            told = scene.start_over("c")
            tally.same(f"{what}: started over", [told[0], sum(line.startswith("put back") for line in told[1:])], [0, 1])
            is_once(tally, what, scene, *FAR, "unsent")


# ---- what stays, what is named

def changes_since(tally):
    """Flags, removals and marks since the last run, and half entries, are named."""
    with Begun() as scene:
        scene.run("c")
        near = scene.near()
        near.set_flags(1, "", "S")
        near.remove(2)
        scene.inbox().messages.pop(3)
        scene.inbox().messages.pop(4)
        scene.run("c", "--gone", "--pull")
        near.set_flags(4, "T", "")
        scene.make_anew()
        told = scene.start_over("c")
        tally.same("status", told[0], 0)
        lines = "\n".join(map(str, told))
        tally.check("the changed flags are named", "\nflags changed from - to S: ~/mbsync-start-over/c:INBOX.1/cur/" in lines, lines)
        tally.check("so is the message that was removed at the server", "\nmarked as deleted: ~/mbsync-start-over/c:INBOX.1/cur/" in lines, lines)
        tally.check("the one that was undeleted here is put back", sum(line.startswith("put back") for line in told[1:]) == 1, lines)
        is_once(tally, "changes since the last run", scene, "far 1", "far 2", "far 4", "far 5", "far 6")


def lost_at_the_server(tally):
    """The server was put back to an earlier time: what it lost is kept aside, and goes back where that is asked for."""
    for words, count in ((), 2), (("--lost", "5"), 0), (("--lost", "6"), 1):
        with Begun() as scene:
            scene.run("c")
            for uid in (5, 6):
                scene.inbox().messages.pop(uid)
            scene.inbox().next = 5
            told = scene.start_over(*words, "c")
            tally.same(f"lost messages {words}", [told[0], sum(line.startswith("not come again") for line in told[1:])], [0, count])
            is_once(tally, f"lost messages {words}", scene, *(FAR[:4] + FAR[4 + count:]))


def mailboxes_below(tally):
    """Mailboxes below, and all that is not the mailbox's own, stay where they are."""
    for inbox, path, box, below in (("~/mail", "~/mail", "INBOX", "mail/below"), ("~/inbox", "~/mail", "work", "mail/work/below")):
        with Begun(inbox=inbox, path=path) as scene:
            scene.server.boxes.update({"work": Box([message("work")]), below.removeprefix("mail/"): Box([message("below")])})
            scene.run("all")
            scene.write(below + "/new/1.unsent", message("unsent"))
            folder = inbox.removeprefix("~/") if box == "INBOX" else "mail/work"
            scene.write(folder + "/dovecot.index", b"of another program")
            before = sorted(os.listdir(scene.path(below + "/cur")))
            scene.make_anew()
            scene.server.boxes["work"].validity = 2
            told = scene.start_over("all:" + box)
            tally.same(f"{box} is started over", told[0], 0)
            tally.same("the mailbox below stays", [sorted(os.listdir(scene.path(below + "/cur"))), len(os.listdir(scene.path(below + "/new")))],
                       [before, 1])
            tally.same("and what is of another program", os.path.exists(scene.path(folder + "/dovecot.index")), True)
            told = [scene.run("all") for _ in range(2)]
            counts = [len(scene.near_messages(it)) for it in (below, folder)]
            tally.same("nothing comes twice there", counts, [2, 6 if box == "INBOX" else 1])


# ---- kills, refusals

def killed(tally):
    """The command is killed at each of its changes; a run of mbsync comes between; then it is given again."""
    command, at, status, ends = command_of(COMMAND), 0, 99, set()
    with Begun(2) as scene, tempfile.TemporaryDirectory() as kept:
        scene.run("c")
        scene.add_near("1.unsent", "unsent")
        scene.add_near("2.kept", "kept")
        scene.make_anew()
        shutil.copytree(scene.home, kept + "/home", symlinks=True)
        boxes = {name: (dict(box.messages), box.next) for name, box in scene.server.boxes.items()}
        words = ["-c", scene.path(".mbsyncrc"), "--mbsync", scene.program, "c"]
        while status == 99:
            shutil.rmtree(scene.home)
            shutil.copytree(kept + "/home", scene.home, symlinks=True)
            for name, (messages, next_uid) in boxes.items():
                scene.server.boxes[name].messages, scene.server.boxes[name].next = dict(messages), next_uid
            status = killed_at(command, scene.home, words, at)
            between = scene.run("c") if at % 2 else []
            again = killed_at(command, scene.home, words, 10**6) if status == 99 else status
            scene.run("c")
            wanted = {subject: 1 for subject in ("far 1", "far 2", "unsent", "kept")}
            ends.add((again, scene.counts() == (wanted, wanted)))
            if (again, scene.counts() == (wanted, wanted)) != (0, True):
                tally.fails(f"killed at change {at}: {between} {scene.counts()} {scene.start_over('c')}")
            at += 1
    tally.same(f"killed at each of {at} changes, and given again, each message is on both sides once", ends, {(0, True)})


def given_twice(tally):
    with Begun() as scene:
        scene.run("c")
        scene.add_near("1.unsent", "unsent")
        told = [scene.start_over("c")[0] for _ in range(2)]
        tally.same("given twice", [told, sorted(os.listdir(scene.path("mbsync-start-over")))], [[0, 0], ["c:INBOX.1", "c:INBOX.2"]])
        is_once(tally, "given twice", scene, *FAR, "unsent")


def a_run_that_fails(tally):
    """The server cannot be reached: the command says so, and goes on later."""
    with Begun() as scene:
        scene.run("c")
        scene.add_near("1.unsent", "unsent")
        scene.breaks_at(3)
        told = scene.start_over("c")
        tally.check("the first run has not ended", told[0] == 1 and told[-1].endswith("give this command again"), told)
        scene.server.script = None
        tally.same("given again, it goes on", scene.start_over("c")[0], 0)
        is_once(tally, "a run that fails", scene, *FAR, "unsent")


def refusals(tally):
    with Begun() as scene:
        scene.run("c")
        before = scene.own()
        for words, why in ((("nope",), "has no channel nope"), (("all",), "has patterns"), (("c:other",), "has the mailbox INBOX alone"),
                           (("all:../x",), "no mailbox can be called"), (("all:none",), "no mailbox is in"),
                           (("--aside", "~/mail/old", "c"), "where it would be synchronised"), (("--aside", "/dev/shm/old", "c"), "on another disk")):
            told = scene.start_over(*words)
            tally.check(f"refused: {why}", told[0] == 2 and why in told[-1], told)
        with open(scene.path("inbox/.mbsyncstate.lock"), "ab") as lock:
            fcntl.flock(lock, fcntl.LOCK_EX)
            told = scene.start_over("c")
            tally.check("refused while mbsync is at work", told[0] == 2 and "mbsync is at work" in told[-1], told)
        scene.write("inbox/.uidvalidity", b"7\n6\n")
        told = scene.start_over("c")
        tally.check("refused with another UIDVALIDITY", told[0] == 2 and "its first line has to be" in told[-1], told)
        scene.write("inbox/.uidvalidity", before[".uidvalidity"])
        tally.same("nothing was changed", [scene.own(), scene.run("c")], [before, [0, "c:INBOX", "ran"]])


def main():
    words = places.parser_of(__doc__)
    words.add_argument("--program", default=places.MBSYNC, help="the built mbsync, if it is left out")
    words.add_argument("names", nargs="*", help="parts of names of scenes")
    words = words.parse_args()
    places.must_run(words.program)
    Edge.program = words.program
    Tally().play([copies_in_the_journal, a_push_without_its_reply, bad_states, changes_since, lost_at_the_server, mailboxes_below, killed,
                  given_twice, a_run_that_fails, refusals], words.names)


if __name__ == "__main__":
    main()
