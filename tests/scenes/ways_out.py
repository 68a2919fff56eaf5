"""The scenes of stale.py in which a mailbox is at a dead end, and the advice that is printed is followed: after it no message comes twice."""
import os
import re
import shutil
from collections import Counter

from tests.support.configuration import imap_store
from tests.support.converted import convert
from tests.support.edge_scene import THREE, Edge, far, near
from tests.support.explained import FINISHED
from tests.support.scene import HOME_STORE, ONE, TWO, near_text
from tests.support.scripted_server import BODY, Box, body_told
from tests.support.stale_scene import Stale, numbered, says, told_of

CLEAN = [0, "c:INBOX", "ran"]
JOURNAL_LINE = re.compile(r"\"([dv] \d+)\"")
STATE_OF_ISYNC = "FarUidValidity 1\nNearUidValidity %s\nMaxPulledUid 2\nMaxPushedUid 2\n\n1 1 S\n2 2 \n"
ISYNCS_CHANNEL = "Channel c\nFar :far:INBOX\nNear :near:INBOX\nSyncState *\n"
HARM = ("remove .mbsyncstate", "take .mbsyncstate")


def faults(told):
    """The lines of advice."""
    return [line for line in told[1:] if line.startswith("  ")]


def follow_journal_line(scene, told):
    """Adds the line that is printed to the journal; gives it, or none."""
    lines = {found for line in faults(told) for found in JOURNAL_LINE.findall(line)}
    if len(lines) != 1:
        return None
    with open(scene.path("inbox/.mbsyncstate.journal"), "a", encoding="ascii") as journal:
        journal.write(f"{min(lines)}\n")
    return min(lines)


def twice(scene, box="INBOX", folder="inbox"):
    """The subjects of messages that are there more than once on a side."""
    found = []
    for side, messages in (("far", scene.far_messages(box)), ("near", scene.near_messages(folder))):
        subjects = Counter(re.search(rb"Subject: ([^\r\n]*)", data)[1].decode() for _, data in messages.values())
        found += [f"{side} {subject}" for subject, count in subjects.items() if count > 1]
    return found


def refuse(verb, uid=None, words=b"NO [LIMIT] Too many user flags in mailbox"):
    """A script of the server that refuses each command like this, of this message where one is named."""
    def script(talk, command):
        if command.verb != verb or uid not in (None, command.uids()):
            return False
        if verb == b"APPEND":
            size = int(re.search(rb"\{(\d+)\}\Z", command.words)[1])
            talk.send(b"+ go")
            talk.file.read(size)
            talk.file.readline()
        talk.done(command, words)
        return True

    return script


def refused_flag(tally):
    """The server never takes a label; a flag of another message waits behind it."""
    with Stale(ONE, TWO, more="Keyword a $Label1\n") as scene:
        scene.mark_near(1, "a")
        scene.mark_near(2, "F")
        scene.server.script = refuse(b"UID STORE", 1)
        for _ in range(2):
            told = scene.run("c")
            tally.check("a flag that is refused for good shuts the mailbox, and says so", "mbsync: c:INBOX: refused step 1" in told, told)
        tally.same("the line for the journal is printed", follow_journal_line(scene, told), "d 1")
        told = scene.run("c")
        tally.check("with this line the run goes on", told[0] == 0 and told[-1] == FINISHED, told)
        tally.same("the other flag is carried over", scene.far_messages(), {1: ("", ONE), 2: ("F", TWO)})
        told = [scene.run("c") for _ in range(2)]
        tally.same("later runs are not shut", [told[-1], twice(scene)], [CLEAN, []])


def refused_message(tally):
    """The server never takes a message; another one waits behind it."""
    with Stale(ONE) as scene:
        scene.write("inbox/new/17.mine", near_text(TWO))
        scene.write("inbox/new/18.mine", near_text(THREE))
        refused = refuse(b"APPEND", words=b"NO [LIMIT] too large")
        scene.server.script = lambda talk, command: len(scene.inbox().messages) == 1 and command.count < 3 and refused(talk, command)
        told = scene.run("c")
        scene.run("c")
        tally.check("a message that is refused is told", "mbsync: c:INBOX: refused step 1" in told, told)
        tally.same("the line for the journal is printed", follow_journal_line(scene, told), "v 1")
        told = scene.run("c")
        tally.check("with this line the run goes on", "finished" in told, told)
        tally.same("the other one is sent", sorted(data for _, data in scene.far_messages().values()), sorted([ONE, THREE]))
        told = [scene.run("c") for _ in range(2)]
        tally.same("later runs are not shut", [told[-1], twice(scene), len(scene.near_messages())], [CLEAN, [], 3])


def refused_expunge(tally):
    """The server never expunges, as in a shared folder; a flag waits behind nothing, a near expunge does."""
    with Stale(ONE, TWO) as scene:
        scene.mark_near(1, "T")
        scene.server.script = refuse(b"UID EXPUNGE", words=b"NO [NOPERM] Permission denied")
        told = scene.run("c")
        tally.check("an expunge that is refused is told", "mbsync: c:INBOX: refused step 2" in told, told)
        tally.same("the line for the journal is printed", follow_journal_line(scene, told), "d 2")
        scene.set_up("Near")
        told = [scene.run("c") for _ in range(4)]
        tally.same("with this line and without the side in Expunge the mailbox is not shut", [told[-1], twice(scene)], [CLEAN, []])
        tally.same("the other message is as it was", [scene.near_messages()[2], scene.far_messages()[2]], [("", near_text(TWO)), ("", TWO)])


def unread(answer):
    """A script of the server that answers so where message 2 is fetched."""
    def script(talk, command):
        if not (command.verb == b"UID FETCH" and command.asks(BODY, 2)):
            return False
        answer(talk)
        talk.done(command)
        return True

    return script


def unreadable_message(tally):
    """A message at the server cannot be read: it has a NUL, or its body is NIL. Another one waits behind it."""
    nul = body_told(2, 2, b"BODY[]", b"Subject: nul\r\n\r\n\0\r\n")
    for name, answer in (("with a NUL", lambda talk: talk.stream.sendall(nul)), ("whose body is NIL", lambda talk: talk.send(b"* 2 FETCH (UID 2 BODY[] NIL)"))):
        with Stale(ONE) as scene:
            scene.inbox().add(TWO)
            scene.inbox().add(THREE)
            scene.server.script = unread(answer)
            told = scene.run("c")
            tally.check(f"a message {name} is told by its UID", told[0] == 1 and any("pull 2" in line or "UID 2" in line for line in faults(told)), told)
            line = follow_journal_line(scene, told)
            if line is None:
                # The other way out: it is taken out of the mailbox there.
                del scene.inbox().messages[2]
            told = [scene.run("c") for _ in range(3)]
            tally.same("the way out is followed: the other one is pulled", sorted(data for _, data in scene.near_messages().values()),
                       sorted(map(near_text, (ONE, THREE))))
            tally.same("later runs are not shut, and nothing comes twice", [told[-1], twice(scene)], [CLEAN, []])


def read_only(tally):
    """The mailbox can be read only at the server, and then no longer."""
    with Stale(ONE) as scene:
        def script(talk, command):
            if command.verb != b"SELECT":
                return False
            kept, talk.done = talk.done, lambda command, text=b"": kept(command, b"OK [READ-ONLY] done")
            talk.answer(command)
            talk.done = kept
            return True

        scene.mark_near(1, "S")
        scene.server.script = script
        told = scene.run("c")
        tally.check("a mailbox that can be read only is told", told[0] == 1 and told_of(told, "read-only"), told)
        scene.server.script = None
        tally.same("once it can be written the flag is carried over", [scene.run("c")[0], scene.far_messages()], [0, {1: ("S", ONE)}])


def missing_label(tally):
    """The server keeps no labels: what is printed names the Keyword line, and without it the mailbox is not shut."""
    with Stale(ONE) as scene:
        def script(talk, command):
            if command.verb != b"SELECT":
                return False
            kept = talk.send
            talk.send = lambda *lines: kept(*(line.replace(b"$Label1 ", b"").replace(b" $Label1", b"") for line in lines))
            talk.answer(command)
            talk.send = kept
            return True

        scene.set_up(more="Keyword a $Label1\n")
        scene.server.script = script
        told = scene.run("c")
        tally.check("a label that is not kept is told, with the line of the configuration", told[0] == 1 and told_of(told, "Keyword"), told)
        scene.set_up()
        tally.same("without this line the mailbox is not shut", [scene.run("c"), twice(scene)], [CLEAN, []])


def missing_parts(tally):
    """`tmp`, `new` or both are missing, as git and rsync leave empty folders out."""
    for parts in (("tmp",), ("new",), ("new", "tmp")):
        with Stale(ONE, TWO) as scene:
            for part in parts:
                os.rmdir(scene.path(f"inbox/{part}"))
            told = scene.run("c")
            advice = " ".join(faults(told))
            tally.check(f"without {' and '.join(parts)} the advice is to make it again", told[0] == 1 and "create it again" in advice, told)
            tally.check("and none after which all comes twice", not any(words in advice for words in HARM), told)
            for part in parts:
                os.mkdir(scene.path(f"inbox/{part}"))
            tally.same("made again, nothing comes twice", [scene.run("c"), *scene.sides()], [CLEAN, near(ONE, TWO), far(ONE, TWO)])


def missing_folder(tally):
    """The whole folder is emptied but for its state: the advice is followed."""
    with Edge(ONE, create="Both") as scene:
        scene.server.boxes["a"] = Box([TWO, THREE])
        scene.run("all")
        for part in ("cur", "new", "tmp"):
            shutil.rmtree(scene.path("mail/a/" + part))
        told = scene.run("all")
        tally.check("it is told", "mbsync: all:a: absent near" in told and told_of(told, "remove the whole folder"), told)
        shutil.rmtree(scene.path("mail/a"))
        told = scene.run("all")
        tally.same("removed whole, all is pulled once", [told[0], scene.near_messages("mail/a"), scene.far_messages("a")],
                   [0, near(TWO, THREE), far(TWO, THREE)])


def isyncs_state(tally):
    """isync's own state stands there: the converter is named, and after it nothing comes twice."""
    with Stale(ONE, TWO) as scene:
        validity = scene.near().text(".uidvalidity").split("\n")[0]
        scene.mark_far(1, "S")
        scene.mark_near(1, "S")
        scene.write("inbox/.mbsyncstate", (STATE_OF_ISYNC % validity).encode())
        told = scene.run("c")
        advice = " ".join(faults(told))
        tally.check("isync's state is told, with the converter", "mbsync: c:INBOX: bad state 1" in told and "How to move from isync" in advice, told)
        tally.check("it says that it is isync's, and offers no removal", "isync's" in advice and not any(words in advice for words in HARM), told)
        ours = scene.path(".mbsyncrc")
        shutil.copy(ours, scene.path("ours"))
        scene.configure(imap_store(scene.server.port, more="SSLType None\n") + HOME_STORE + ISYNCS_CHANNEL)
        tally.same("it is converted", [convert(scene.home)[0], convert(scene.home, "--switch")[0]], [0, 0])
        shutil.copy(scene.path("ours"), ours)
        tally.same("converted, nothing comes twice", [scene.run("c"), twice(scene), len(scene.near_messages())], [CLEAN, [], 2])


def far_uid_given_twice(tally):
    """The server says OK to a message that it does not keep, and gives its UID to the next one, whose UID it does not say."""
    with Stale(ONE) as scene:
        for number in (1, 2):
            scene.write(f"inbox/new/{number}.mine", near_text(numbered(number)[-1]))

        def forget(talk, command):
            if command.count == 1:
                talk.done(command, b"OK [APPENDUID 1 2] done")
                del scene.inbox().messages[2]
                scene.inbox().next = 2
            else:
                talk.done(command, b"OK done")
            return True

        scene.server.added = forget
        told = scene.run("c")
        advice = " ".join(faults(told))
        tally.check("a far UID that is given twice is told", "mbsync: c:INBOX: bad state 0" in told and "UID 2" in advice, told)
        tally.check("it says that the server did it, and nothing of .uidvalidity", "server" in advice and ".uidvalidity" not in advice, told)
        tally.same("both files are still there", len(scene.near_messages()), 3)


def own_files_out(scene, told):
    """Takes those of the mailbox's own files out of the folder of mailbox `a` that the advice names."""
    advice = " ".join(faults(told))
    for name in (".mbsyncstate.journal", ".mbsyncstate"):
        if name in advice and os.path.exists(scene.path(f"mail/a/{name}")):
            os.remove(scene.path(f"mail/a/{name}"))
        advice = advice.replace(name, "")


def removed_far(tally):
    """A mailbox was removed at the server. Create covers that side, and would not make it."""
    for way in ("on purpose", "by mistake", "by mistake, with a plan pending"):
        with Edge(ONE, create="Both") as scene:
            scene.server.boxes["a"] = Box([TWO, THREE])
            scene.run("all")
            if way.endswith("pending"):
                scene.near("mail/a").set_flags(1, None, frozenset("F"))
                scene.server.script = lambda talk, command: command.verb == b"UID STORE" and (talk.hang_up(), True)
                scene.run("all")
                scene.server.script = None
            del scene.server.boxes["a"]
            told = scene.run("all")
            advice = " ".join(faults(told))
            tally.check("a far mailbox that was removed is told, with both ways",
                        "mbsync: all:a: absent far" in told and "near folder" in advice and ".mbsyncstate" in advice, told)
            tally.check("nothing says that Create would make it", "would make it" not in advice, told)
            tally.same("it is not made", sorted(scene.server.boxes), ["INBOX"])
            if way == "on purpose":
                shutil.rmtree(scene.path("mail/a"))
                tally.same("removed near, too, it is gone", [scene.run("all"), sorted(scene.server.boxes)], [[0, "all:INBOX", "ran"], ["INBOX"]])
            else:
                own_files_out(scene, told)
                told = scene.run("all")
                tally.same(f"removed {way}: without its state all is pushed, once",
                           [told[0], sorted(data for _, data in scene.far_messages("a").values()), len(scene.near_messages("mail/a"))]
                           if "a" in scene.server.boxes else told, [0, sorted([TWO, THREE]), 2])


def removed_in_its_first_run(tally):
    """A mailbox is removed at the server during its first run, with Create Both: it is no new one, and is not made anew."""
    with Edge(ONE, create="Both") as scene:
        scene.server.boxes["a"] = Box([TWO, THREE])
        scene.server.script = lambda talk, command: command.asks(BODY, 2) and talk.box is scene.server.boxes.get("a") and (talk.hang_up(), True)
        scene.run("all")
        scene.server.script = None
        del scene.server.boxes["a"]
        tally.same("its journal stands, and no state",
                   [name in scene.texts("mail/a") for name in (".mbsyncstate.journal", ".mbsyncstate")], [True, False])
        for _ in range(2):
            told = scene.run("all")
            tally.check("a mailbox whose journal stands is told as absent", "mbsync: all:a: absent far" in told, told)
            tally.same("it is not made", sorted(scene.server.boxes), ["INBOX"])
        tally.same("the folder keeps its message", scene.near_messages("mail/a"), near(TWO))
        own_files_out(scene, told)
        told = scene.run("all")
        tally.same("by the way that is told what was pulled is pushed", scene.far_messages("a") if "a" in scene.server.boxes else told, far(TWO))


def made_anew(tally):
    """A mailbox is made anew at the server, with fewer messages: its validity is told, and the way of the page is followed."""
    for journal in (False, True):
        with Stale(ONE, TWO, THREE) as scene:
            if journal:
                scene.take_away(3)
                scene.kill_at("c", when=says(b"UID STORE"))
            scene.server.boxes["INBOX"] = Box([ONE], validity=77)
            before = scene.own()
            told = scene.run("c")
            tally.same("another validity is told before UIDNEXT is looked at", [told[0], told[2]], [1, "mbsync: c:INBOX: validity changed far"])
            tally.same("nothing is done", [scene.own(), scene.far_messages()], [before, far(ONE)])
            os.rename(scene.path("inbox"), scene.path("inbox.old"))
            tally.same("started over, the one message is there once", [scene.run("c")[0], scene.sides()], [0, [near(ONE), far(ONE)]])


SCENES = [refused_flag, refused_message, refused_expunge, unreadable_message, read_only, missing_label, missing_parts, missing_folder, isyncs_state,
          far_uid_given_twice, removed_far, removed_in_its_first_run, made_anew]
