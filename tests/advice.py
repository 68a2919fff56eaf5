#!/usr/bin/env python3
"""Follows each advice of docs/MBSYNC.md, How to recover, to the letter, in the situation that it is for and in those that are easily taken
for it: no message is lost, none comes twice, none comes again. tests/recovery.py, start_over.py and from_isync.py have the rest.

The server is in this process, the folders are made for the run."""
import os
import pathlib
import shutil
import subprocess
import sys

sys.path.insert(0, str(pathlib.Path(__file__).resolve().parents[1]))
from tests.support import places
from tests.support.begun import FAR, Begun, is_once, message
from tests.support.configuration import imap_store, maildir_store
from tests.support.edge_scene import Edge
from tests.support.scripted_server import Box
from tests.support.tally import Tally

OWN = "mkdir ../../elsewhere; mv cur new tmp .mbsyncstate* .uidvalidity* ../../elsewhere"


class Boxes(Begun):
    """INBOX, and mailboxes `work` and `work/below` with two messages each, which have been synchronised; each has one that was not sent."""

    def __init__(self):
        super().__init__()
        self.server.boxes.update({name: Box([message(f"{name} {number}") for number in (1, 2)]) for name in ("work", "work/below")})
        self.run("all")
        for name in ("work", "work/below"):
            self.add_near("1.unsent", f"{name} unsent", f"mail/{name}")

    def create(self, side):
        """The line Create of both channels."""
        text = imap_store(self.server.port) + maildir_store("~/mail", "~/inbox")
        text += "Channel all\nFar :far:\nNear :near:\nPatterns * INBOX\n"
        self.configure(text + f"Create {side}\n")

    def both(self, name):
        """The subjects of a mailbox on both sides, once for each message."""
        def subjects(messages):
            return sorted(data.decode().splitlines()[0].removeprefix("Subject: ") for _, data in messages.values())
        return [subjects(self.near_messages(f"mail/{name}")), subjects(self.far_messages(name)) if name in self.server.boxes else None]

    def shell(self, folder, line):
        subprocess.run(line, shell=True, cwd=self.path(folder), check=True)


def wanted(*names):
    return [sorted(f"{name} {it}" for name in names for it in (1, 2, "unsent"))] * 2


def absent(tally, scene, box="work"):
    told = scene.run("all")
    tally.check(f"{box} is absent", told[0] == 1 and f"mbsync: all:{box}: absent far" in told, told)


# ---- absent mailboxes

def renamed_at_the_server(tally):
    """The near folder gets the new name."""
    with Boxes() as scene:
        scene.create("None")
        scene.server.boxes["office"] = scene.server.boxes.pop("work")
        absent(tally, scene)
        os.rename(scene.path("mail/work"), scene.path("mail/office"))
        scene.server.boxes["office/below"] = scene.server.boxes.pop("work/below")
        told = [scene.run("all") for _ in range(2)]
        tally.same("renamed near, all goes on", [it[0] for it in told], [0, 0])
        tally.same("nothing is there twice", [scene.both("office"), scene.both("office/below")], [wanted("work"), wanted("work/below")])
    with Boxes() as scene:
        scene.server.boxes["office"] = scene.server.boxes.pop("work")
        absent(tally, scene)
        scene.shell("mail/work", OWN)
        told = scene.run("all")
        tally.same("the old one moved away, all goes on", [told[0], len(scene.both("office")[0])], [0, 2])
        tally.same("what was never sent is kept there", len(scene.near_messages("elsewhere")), 3)


def removed_on_purpose(tally):
    """The mailbox's own files are moved away; the mailbox below it stays."""
    with Boxes() as scene:
        del scene.server.boxes["work"]
        absent(tally, scene)
        scene.shell("mail/work", OWN)
        told = [scene.run("all") for _ in range(2)]
        tally.same("it is gone on both sides", [[it[0] for it in told], "work" in scene.server.boxes], [[0, 0], False])
        tally.same("the mailbox below it stays", scene.both("work/below"), wanted("work/below"))


def gone_by_mistake(tally):
    """The mailbox is made anew by what is near; also where it is back meanwhile, as it was or under another UIDVALIDITY, or in part."""
    for what in ("gone", "back", "back under another UIDVALIDITY", "back in part"):
        with Boxes() as scene:
            box = scene.server.boxes.pop("work")
            absent(tally, scene)
            if what != "gone":
                scene.server.boxes["work"] = box
            if what == "back under another UIDVALIDITY":
                box.validity = 2
            if what == "back in part":
                box.messages.pop(2)
                box.validity = 2
            scene.create("Far")
            told = scene.start_over("--lost", "1", "all:work")
            tally.same(f"{what}: started over", told[0], 0)
            told = [scene.run("all") for _ in range(2)]
            tally.same(f"{what}: the next runs are whole", [it[0] for it in told], [0, 0])
            tally.same(f"{what}: each message is on both sides once", scene.both("work"), wanted("work"))
            tally.same(f"{what}: the mailbox below stays", scene.both("work/below"), wanted("work/below"))


def absent_near(tally):
    """What is missing near is made again, or put back, or the mailbox is started over."""
    with Boxes() as scene:
        scene.create("None")
        scene.shell("mail/work", "rmdir tmp")
        told = scene.run("all")
        tally.check("tmp is missing", told[0] == 1, told)
        scene.shell("mail/work", "mkdir tmp")
        tally.same("made again, all goes on", [scene.run("all")[0], scene.both("work")], [0, wanted("work")])
    with Boxes() as scene:
        scene.run("all")
        scene.shell("mail/work", "mv cur ../../away")
        told = scene.run("all")
        tally.check("cur is missing: nothing counts as removed", told[0] == 1 and len(scene.server.boxes["work"].messages) == 3, told)
        tally.same("started over", scene.start_over("all:work")[0], 0)
        tally.same("all is there again", [[scene.run("all")[0] for _ in range(2)], scene.both("work")], [[0, 0], wanted("work")])
    with Boxes() as scene:
        scene.run("all")
        scene.shell("mail/work", "mv cur new tmp ../..")
        told = scene.run("all")
        tally.check("all three are missing: nothing counts as removed", told[0] == 1 and len(scene.server.boxes["work"].messages) == 3, told)
        scene.shell("mail/work", "mv ../../cur ../../new ../../tmp .")
        tally.same("put back with their messages, all goes on", [scene.run("all")[0], scene.both("work")], [0, wanted("work")])


# ---- states, journals, names

def journal_without_its_state(tally):
    """The journal has logged copies that the state does not know, and is damaged: the mailbox is started over."""
    for cut in (1, 3, 6):
        with Begun() as scene:
            scene.run("c", "--gone")
            scene.breaks_at(cut)
            scene.add_near("1.unsent", "unsent")
            scene.run("c")
            scene.server.script = None
            with open(scene.path("inbox/.mbsyncstate.journal"), "r+b") as file:
                text = file.read().replace(b"\ngo\n", b"\ngo\nx\n", 1)
                file.seek(0)
                file.write(text)
            told = scene.run("c")
            tally.check(f"the journal is refused (cut at {cut})", told[0] == 1 and told[2].startswith("mbsync: c:INBOX: bad journal"), told)
            tally.same("started over", scene.start_over("c")[0], 0)
            is_once(tally, f"a damaged journal, cut at {cut}", scene, *FAR, "unsent")


def one_uid_twice(tally):
    """A message of another mailbox was moved here with its UID: the name says which of the two was here before."""
    for is_pulled in (True, False):
        with Boxes() as scene:
            scene.run("all")
            uid = 1 if is_pulled else 3
            here, place = (scene.near("mail/work").path_of(uid)[0] for _ in range(2))
            moved = scene.near("inbox").path_of(uid)[0]
            target = os.path.join(os.path.dirname(here), f"9{os.path.basename(moved)}")
            shutil.move(moved, target)
            told = scene.run("all")
            tally.check("two files with one UID", "mbsync: all:work: store fault near 3" in told, told)
            validity = scene.near("mail/work").text(".uidvalidity").split("\n")[0]
            pulled = [path for path in (place, target) if os.path.basename(path).startswith(f"{validity}.{uid}.mbsync")]
            tally.same("the name tells the one that was pulled here", pulled, [place] if is_pulled else [])
            os.rename(target, target.replace(f",U={uid}", ""))
            told = [scene.run("all") for _ in range(2)]
            tally.same("without the UID it is a new message", [it[0] for it in told], [0, 0])
            wanted_ = sorted([*wanted("work")[0], f"far {uid}"])
            tally.same("each message is on both sides once", scene.both("work"), [wanted_] * 2)


def main():
    words = places.parser_of(__doc__)
    words.add_argument("--program", default=places.MBSYNC, help="the built mbsync, if it is left out")
    words.add_argument("names", nargs="*", help="parts of names of scenes")
    words = words.parse_args()
    places.must_run(words.program)
    Edge.program = words.program
    Tally().play([renamed_at_the_server, removed_on_purpose, gone_by_mistake, absent_near, journal_without_its_state, one_uid_twice], words.names)


if __name__ == "__main__":
    main()
