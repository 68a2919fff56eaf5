"""The scenes of stale.py about mailboxes under odd names: the folder of Inbox, parts that are a mailbox's own, and INBOX in any spelling."""
import os

from tests.support.configuration import imap_store, maildir_store
from tests.support.edge_scene import THREE, Edge, far, near
from tests.support.scene import ONE, TWO, near_text
from tests.support.scripted_server import Box, plain

CHANNEL = "Channel all\nFar :far:\nNear :near:\nPatterns %s\nCreate %s\nExpunge Both\n"
# Names that a server can list, a part of which is that of a mailbox's own folder, and what would be planted there.
OWN_PARTS = ("tmp", "new", "cur", "a/tmp", "a/new", "a/cur", "a/cur/x,U=1:2,", "tmp/mbsync.copy", "cur/b")


def inbox_at(scene, inbox, patterns="* INBOX", create="Both", channel=CHANNEL):
    """The configuration whose Inbox is this folder."""
    scene.configure(imap_store(scene.server.port) + maildir_store("~/mail", inbox) + channel % (patterns, create))


def inbox_below_path(tally):
    """Inbox stands below Path, under another name than INBOX."""
    for name in ("Inbox", "inbox", "AAA", "zzz", "Mail/In", "INBOX"):
        with Edge(ONE, TWO) as scene:
            scene.server.boxes["work"] = Box([THREE])
            inbox_at(scene, f"~/mail/{name}")
            told = [scene.run("all") for _ in range(3)]
            tally.same(f"Inbox at {name}: each run is whole", [it[0] for it in told], [0, 0, 0])
            tally.same("nothing is made at the server", sorted(scene.server.boxes), ["INBOX", "work"])
            tally.same("each message is there once", [scene.near_messages(f"mail/{name}"), scene.far_messages(), scene.near_messages("mail/work")],
                       [near(ONE, TWO), far(ONE, TWO), near(THREE)])
            tally.same("INBOX is synchronised once a run", [told[-1].count("all:INBOX"), len(told[-1])], [1, 5])
            tally.same("-l lists it once", scene.run("-l", "all"), [0, "all:INBOX", "all:work"])


def inbox_by_a_link(tally):
    """The folder of Inbox is reached below Path by a link."""
    with Edge(ONE) as scene:
        os.makedirs(scene.path("mail"))
        inbox_at(scene, "~/elsewhere")
        scene.run("all")
        os.symlink(scene.path("elsewhere"), scene.path("mail/linked"))
        told = [scene.run("all") for _ in range(2)]
        tally.same("the folder of Inbox is one mailbox, whatever leads to it", [told, sorted(scene.server.boxes)], [[[0, "all:INBOX", "ran"]] * 2, ["INBOX"]])


def own_parts(tally):
    """The server lists mailboxes a part of whose name is that of a mailbox's own folder: they are left out, with a notice."""
    for name in OWN_PARTS:
        with Edge(ONE, patterns="*", create="Both") as scene:
            scene.server.boxes = {"a": Box([ONE]), name: Box([TWO])}
            told = [scene.run("all") for _ in range(3)]
            tally.same(f"{name} is skipped in each run", [sum(line.startswith("mbsync: skipped for its name: far:" + name.partition(":")[0]) for line in it[1:])
                                                         for it in told], [1, 1, 1])
            tally.same("nothing else is told", [[line for line in it if str(line).startswith("mbsync: all")] for it in told], [[], [], []])
            tally.same("mailbox a is synchronised", [scene.near_messages("mail/a"), scene.far_messages("a")], [near(ONE), far(ONE)])
            tally.same("nothing is planted, and nothing made at the server", [sorted(os.listdir(scene.path("mail"))), sorted(scene.server.boxes)],
                       [["a"], sorted(["a", name])])
            got = scene.run("-l", "all")
            tally.same("-l does not list it", [got[0], got[1], "all:" + name in got], [0, "all:a", False])


def own_parts_near(tally):
    """A near folder lies under `tmp` or `cur` of another mailbox, or of the path: no run makes it at the server."""
    with Edge(ONE, patterns="*", create="Both") as scene:
        scene.server.boxes = {"a": Box([ONE])}
        scene.run("all")
        for name in ("mail/a/tmp/x", "mail/cur/y", "mail/new"):
            for part in ("cur", "new", "tmp"):
                os.makedirs(scene.path(f"{name}/{part}"))
        told = [scene.run("all") for _ in range(2)]
        tally.same("each run is whole, and nothing is made at the server", [[it[0] for it in told], sorted(scene.server.boxes)], [[0, 0], ["a"]])


def named_with_an_own_part(tally):
    """A channel names a mailbox a part of which is a mailbox's own: nothing is made."""
    with Edge(ONE) as scene:
        scene.server.boxes["a/tmp"] = Box([TWO])
        scene.configure(imap_store(scene.server.port) + maildir_store("~/mail", "~/inbox") + "Channel c\nFar :far:a/tmp\nNear :near:a/tmp\nCreate Both\n")
        told = scene.run("c")
        tally.same("a mailbox of such a name is refused", told[:2], [1, "mbsync: config channel c: mailbox a/tmp"])
        tally.same("nothing is made near", os.path.exists(scene.path("mail/a")), False)


def spelled(tally):
    """The server lists INBOX in another spelling, and takes any."""
    for name in ("Inbox", "inbox", "iNBOX"):
        with Edge(ONE, TWO, patterns="* INBOX", create="Both") as scene:
            def script(talk, command, name=name):
                if command.verb == b"LIST":
                    talk.send(b'* LIST () "/" "%s"' % name.encode(), b'* LIST () "/" "work"')
                    talk.done(command)
                    return True
                if command.verb == b"SELECT" and plain(command.words).upper() == b"INBOX":
                    command.words = b'"INBOX"'
                if command.verb == b"CREATE":
                    talk.done(command, b"NO it is there")
                    return True
                return False

            scene.server.boxes["work"] = Box([THREE])
            scene.server.script = script
            told = [scene.run("all") for _ in range(2)]
            tally.same(f"a server that lists {name}: it is INBOX", told[1], [0, "all:INBOX", "ran", "all:work", "ran"])
            tally.same("each message is pulled once", [scene.near_messages(), scene.far_messages(), os.path.exists(scene.path(f"mail/{name}"))],
                       [near(ONE, TWO), far(ONE, TWO), False])
            tally.same("-l lists it so", scene.run("-l", "all"), [0, "all:INBOX", "all:work"])
            tally.same("the channel of INBOX finds it", scene.run("c"), [0, "c:INBOX", "ran"])


def spelled_in_the_configuration(tally):
    """A channel names INBOX in another spelling."""
    for far_name, near_name in (("inbox", ""), ("Inbox", "Inbox"), ("INBOX", "inbox"), ("iNbOx", "INBOX")):
        with Edge(ONE, TWO) as scene:
            scene.configure(imap_store(scene.server.port) + maildir_store("~/mail", "~/inbox")
                            + f"Channel c\nFar :far:{far_name}\nNear :near:{near_name}\nCreate Both\n")
            told = [scene.run("c") for _ in range(2)]
            tally.same(f"Far :far:{far_name}, Near :near:{near_name}: it is INBOX", told[1], [0, "c:INBOX", "ran"])
            tally.same("each message is there once, in Inbox", [scene.near_messages(), scene.far_messages(), sorted(scene.server.boxes)],
                       [near(ONE, TWO), far(ONE, TWO), ["INBOX"]])


def folder_spelled(tally):
    """A folder below Path is called INBOX in another spelling, and Inbox stands elsewhere: it is no mailbox, and nothing is made of it."""
    with Edge(ONE, patterns="*", create="Both") as scene:
        scene.server.boxes["work"] = Box([TWO])
        for part in ("cur", "new", "tmp"):
            os.makedirs(scene.path(f"mail/Inbox/{part}"))
        scene.write("mail/Inbox/cur/17.old:2,S", near_text(THREE))
        told = [scene.run("all") for _ in range(2)]
        tally.same("the runs are whole, and nothing is made at the server", [[it[0] for it in told], sorted(scene.server.boxes)], [[0, 0], ["INBOX", "work"]])
        tally.same("it is skipped, with a notice in each", told[1], [0, "all:work", "ran", "mbsync: skipped for its name: near:Inbox"])
        tally.same("that comes once", [it.count("mbsync: skipped for its name: near:Inbox") for it in told], [1, 1])
        tally.same("its file is as it was", os.listdir(scene.path("mail/Inbox/cur")), ["17.old:2,S"])


def notices(tally):
    """A notice comes only for a channel that could have chosen the mailbox."""
    with Edge(ONE) as scene:
        scene.server.boxes.update({"50% off": Box(), "box%": Box(), "box1": Box([TWO])})
        inbox_at(scene, "~/inbox", patterns="box*", channel=CHANNEL + "\nChannel c\nFar :far:\nNear :near:\nCreate Near\n")
        tally.same("a channel of one mailbox tells none", scene.run("c"), [0, "c:INBOX", "new pull 1 -> 1", "ran"])
        found = scene.run("all")
        tally.same("one of patterns tells those that these match", [line for line in found if str(line).startswith("mbsync: skipped")],
                   ["mbsync: skipped for its name: far:box%"])
        tally.same("so does -l", [line for line in scene.run("-l", "all") if str(line).startswith("mbsync: skipped")],
                   ["mbsync: skipped for its name: far:box%"])


SCENES = [inbox_below_path, inbox_by_a_link, own_parts, own_parts_near, named_with_an_own_part, spelled, spelled_in_the_configuration, folder_spelled,
          notices]
