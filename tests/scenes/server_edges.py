"""The scenes of edges.py in which the server is not as it should be: it cannot be reached, breaks off, does not give what it lists, or
says too much."""
import copy
import os
import subprocess
import time

from tests.support.edge_scene import EARLIER, FOUR, THREE, Edge, far, near, stopped
from tests.support.explained import FINISHED, VOID
from tests.support.measured import peak_so_far
from tests.support.scene import ONE, TWO, near_text
from tests.support.scripted_server import BODY, HEAD, LISTING, body_told

UNREACHED = "the server of IMAPStore far cannot be reached (connection refused): check its Host and Port, and run again"
UNKNOWN_HOST = "the server of IMAPStore far cannot be reached: is its name in Host known, and this machine online? Run again then"
ENDED = "the connection to the server of IMAPStore far ended: run again"
DISMISSED = "the server of IMAPStore far ended the session: run again"
# What is told of a message that the server lists and does not give.
NOT_GIVEN = "the server of IMAPStore far lists the message with UID 2, but does not send it: run again"
GIVEN_AGAIN = ("the state is sound, but UID %d was given a second time. Keep .mbsyncstate: "
               'the manual page says what to do under "How to recover"')
# What is told where more of a message is shown than was asked for.
LONG_HEADS = "store fault far 3"
NO_ANSWER = "mbsync does not understand the server's answer"
# Notices without an end: how many bytes of them come, how many seconds a run over them may take, and how many MB of memory.
NOTICE, NOTICES, NOTICE_SECONDS, NOTICE_MEMORY = b"* OK still at work\r\n", 100 * 2 ** 20, 120, 64


def not_reached(tally):
    """The server cannot be reached, at first or once its mailboxes were listed."""
    with Edge(ONE) as scene:
        scene.server.stop()
        tally.same("no server", [scene.run("c"), scene.sides()], [[1, "mbsync: cannot open far", "  " + UNREACHED], [{}, far(ONE)]])
    with Edge(ONE) as scene:
        with open(scene.path(".mbsyncrc"), encoding="ascii") as file:
            text = file.read()
        scene.configure(text.replace("Host 127.0.0.1", "Host nobody.invalid"))
        tally.same("a name that is not known", scene.run("c"), [1, "mbsync: cannot open far", "  " + UNKNOWN_HOST])
    with Edge(ONE) as scene:
        scene.server.script = lambda talk, command: command.verb == b"SELECT" and (scene.server.stop(), talk.hang_up())
        tally.same("a server that is gone once it was asked", scene.run("c"), stopped(UNREACHED))
        tally.same("nothing has changed", scene.sides(), [{}, far(ONE)])


def broken_off(tally):
    """The server breaks off where message 2 is fetched."""
    def in_a_message(talk):
        talk.stream.sendall(b"* 2 FETCH (UID 2 BODY[] {%d}\r\nSubject: " % len(TWO))

    for name, ends, lines in (("ends within a message", in_a_message, [ENDED]), ("ends before a reply", lambda talk: None, [ENDED]),
                              ("says BYE", lambda talk: talk.send(b"* BYE until tomorrow"), [DISMISSED, "the server said: until tomorrow"])):
        with Edge(ONE, TWO) as scene:
            scene.server.script = lambda talk, command, ends=ends: command.asks(BODY, 2) and (ends(talk), talk.hang_up())
            tally.same(f"a connection that {name}", scene.run("c"), stopped(*lines))
            tally.same("three attempts were made", scene.server.counts[b"SELECT"], 3)
            tally.same("what was done is kept", scene.sides(), [near(ONE), far(ONE, TWO)])
            scene.server.script = None
            tally.same("the next run goes on", scene.run("c"), [0, "c:INBOX", "new pull 2 -> 2", "finished", FINISHED])
            tally.same("each message is there once", scene.sides(), [near(ONE, TWO), far(ONE, TWO)])


def broken_off_once(tally):
    """The server breaks off once; the next attempt goes on."""
    with Edge(ONE, TWO) as scene:
        ended = []
        scene.server.script = lambda talk, command: command.asks(BODY, 2) and not ended and (ended.append(1), talk.hang_up())
        tally.same("a connection that ends once", scene.run("c"), [0, "c:INBOX", "new pull 2 -> 2", "finished", FINISHED])
        tally.same("each message is there once", scene.sides(), [near(ONE, TWO), far(ONE, TWO)])


def not_given(tally):
    """The server lists message 2, and does not give it."""
    with Edge(ONE, TWO) as scene:
        scene.server.script = lambda talk, command: command.asks(BODY, 2) and (talk.done(command), True)
        for words in (("c",), ("--expunge", "c")):
            tally.same("a message that is listed and not given is told", scene.run(*words), stopped(NOT_GIVEN))
            tally.same("it counts as neither copied nor gone", scene.sides(), [near(ONE), far(ONE, TWO)])
        scene.server.script = None
        tally.same("once it is given, it is copied", [scene.run("c")[0], scene.sides()], [0, [near(ONE, TWO), far(ONE, TWO)]])
        tally.same("then nothing to do", scene.run("c"), [0, "c:INBOX", "ran"])


def given_at_last(tally):
    """The server does not give message 2 when it is asked first."""
    with Edge(ONE, TWO) as scene:
        asked = []
        scene.server.script = lambda talk, command: command.asks(BODY, 2) and not asked and (asked.append(1), talk.done(command))
        told = [0, "c:INBOX", "new pull 1 -> 1", "new pull 2 -> 2", "ran"]
        tally.same("a message that is given when it is asked for again", scene.run("c"), told)
        tally.same("it is copied once", scene.sides(), [near(ONE, TWO), far(ONE, TWO)])


def gone_meanwhile(tally):
    """Another program removes message 2 while the run is at work."""
    def remove(talk, command):
        if command.asks(BODY, 2) and 2 in talk.box.messages:
            del talk.box.messages[2]
            talk.done(command)
            return True
        return False

    with Edge(ONE, TWO, THREE) as scene:
        scene.server.script = remove
        told = [1, "c:INBOX", "new pull 1 -> 1", "void pull 2", "new pull 3 -> 2", "ran", VOID]
        tally.same("a message that is gone when it is fetched is void", scene.run("c"), told)
        tally.same("the others are copied", scene.sides(), [near(ONE, THREE), {1: ("", ONE), 3: ("", THREE)}])
        tally.same("then nothing to do", scene.run("c"), [0, "c:INBOX", "ran"])


def peak_of(scene, *words):
    """What a run tells, and its greatest memory in MB. A run that takes too long is killed."""
    with open(scene.path("told"), "wb") as told:
        process = subprocess.Popen(**scene.words(words, True), stdout=told, stderr=told)
        peak, end = 0, time.monotonic() + NOTICE_SECONDS
        while process.poll() is None:
            peak = peak_so_far(process.pid, peak)
            time.sleep(0.002)
            if time.monotonic() > end:
                process.kill()
    with open(scene.path("told"), encoding="ascii") as told:
        return [process.returncode, *told.read().splitlines()], peak


def many_notices(tally):
    """The server says 100 MB of notices before one reply."""
    def notify(talk, command):
        if command.asks(LISTING):
            for _ in range(NOTICES // len(NOTICE) // 1000):
                talk.stream.sendall(NOTICE * 1000)
        return False

    with Edge(ONE) as scene:
        _, usual = peak_of(scene, "c")
        scene.inbox().add(TWO)
        scene.server.script = notify
        start = time.monotonic()
        got, peak = peak_of(scene, "c")
        seconds = time.monotonic() - start
        tally.tell(f"{NOTICES // 2 ** 20} MB of notices: {peak:.1f} MB of memory, else {usual:.1f} MB, and {seconds:.1f} s")
        tally.same(f"memory stays below {NOTICE_MEMORY} MB", peak < NOTICE_MEMORY, True)
        tally.same("the run comes to its end", got, [0, "c:INBOX", "new pull 2 -> 2", "ran"])
        scene.server.script = None
        tally.same("without them all is copied", [scene.run("c")[0], scene.sides()], [0, [near(ONE, TWO), far(ONE, TWO)]])


def long_heads(tally):
    """The server breaks off behind an APPEND, and tells 1000 bytes then where 22 are asked for."""
    mine = b"Subject: mine\n\n" + b"Here.\n" * 400

    def tell_more(talk, command):
        if not command.asks(HEAD):
            return False
        for place, (uid, (_, data)) in enumerate(talk.box.messages.items(), 1):
            talk.stream.sendall(body_told(place, uid, b"BODY[]<0>", (data + b"x" * 1000)[:1000]))
        talk.done(command)
        return True

    with Edge(ONE) as scene:
        scene.near()
        scene.write("inbox/new/17.mine", mine)
        scene.server.script = tell_more
        scene.server.added = lambda talk, command: command.count == 1 and (talk.hang_up(), True)
        told = [1, "c:INBOX", "mbsync: c:INBOX: " + LONG_HEADS, "  " + NO_ANSWER]
        tally.same("more is shown of a message than was asked for", scene.run("c"), told)
        scene.server.script = scene.server.added = None
        tally.same("then the run goes on", scene.run("c")[0], 0)
        tally.same("the message was sent once", scene.server.counts[b"APPEND"], 1)
        there = {1: ("", ONE), 2: ("", mine.replace(b"\n", b"\r\n"))}
        tally.same("each message is there once", scene.sides(), [{1: ("", mine), 2: ("", near_text(ONE))}, there])


def earlier_midway(tally):
    """The server's mailbox is put back to an earlier time while a plan is pending."""
    with Edge(ONE, TWO) as scene:
        scene.run("c")
        box, earlier = scene.inbox(), copy.deepcopy(scene.inbox())
        box.add(THREE)
        scene.run("c")
        scene.write("inbox/new/17.mine", near_text(FOUR))
        scene.server.script = lambda talk, command: command.verb == b"APPEND" and (talk.hang_up(), True)
        tally.same("a run is stopped before it has sent a message", scene.run("c"), stopped(ENDED))
        scene.server.script, scene.server.boxes["INBOX"] = None, earlier
        before = [scene.own(), scene.sides(), scene.server.counts[b"APPEND"]]
        for words in (("c",), ("--expunge", "c")):
            tally.same("an earlier server is told in the midst of a plan", scene.run(*words), stopped(EARLIER % (3, 3)))
            tally.same("nothing is done or sent", [scene.own(), scene.sides(), scene.server.counts[b"APPEND"]], before)
        scene.server.boxes["INBOX"] = box
        tally.same("put right, it is taken, and the run goes on", scene.run("c"), [0, "c:INBOX", "new push 4 -> 4", "finished", FINISHED])
        tally.same("each message is there once", scene.sides(), [near(ONE, TWO, THREE, FOUR), far(ONE, TWO, THREE, FOUR)])
    with Edge(ONE) as scene:
        scene.run("c")
        box, earlier = scene.inbox(), copy.deepcopy(scene.inbox())
        scene.write("inbox/new/17.mine", near_text(TWO))
        scene.write("inbox/new/18.mine", near_text(THREE))
        scene.server.script = lambda talk, command: command.verb == b"APPEND" and len(box.messages) == 2 and (talk.hang_up(), True)
        tally.same("a run is stopped after its first push", scene.run("c"), stopped(ENDED))
        scene.server.script, scene.server.boxes["INBOX"] = None, earlier
        before = [scene.own(), scene.sides()]
        for words in (("c",), ("--expunge", "c")):
            tally.same("a server from before a copy of the plan is told", scene.run(*words), stopped(EARLIER % (2, 2)))
            tally.same("nothing is done", [scene.own(), scene.sides()], before)
        scene.server.boxes["INBOX"] = box
        tally.same("put right, the rest is pushed", scene.run("c"), [0, "c:INBOX", "new push 3 -> 3", "finished", FINISHED])
        tally.same("each message is there once", scene.sides(), [near(ONE, TWO, THREE), far(ONE, TWO, THREE)])


def given_twice(tally):
    """The near meta file is put back: a copy gets the UID of a message that the state knows."""
    with Edge(ONE, TWO) as scene:
        scene.run("c")
        scene.near().remove(2)
        scene.set_highest(1)
        scene.inbox().add(THREE)
        state = scene.own()[".mbsyncstate"]
        told = [1, "c:INBOX", "mbsync: c:INBOX: bad state 0", "  " + GIVEN_AGAIN % 2]
        tally.same("a UID that is given again is told", scene.run("c"), told)
        tally.same("the state stays", scene.own()[".mbsyncstate"], state)
        scene.near().remove(2)
        scene.set_highest(2)
        tally.same("without the copy and with a higher UID the run goes on", scene.run("c")[0], 0)
        sides = [{1: ("", near_text(ONE)), 3: ("", near_text(THREE))}, {1: ("", ONE), 2: ("T", TWO), 3: ("", THREE)}]
        tally.same("each message is there once", scene.sides(), sides)


def renamed_unread(tally):
    """A mail reader marks a new near message once it was listed, before it is read."""
    names = ("new/17.mine,U=1", "cur/17.mine,U=1:2,S")

    def mark(talk, command):
        if command.asks(LISTING):
            name, other = names if os.path.exists(scene.path("inbox/" + names[0])) else reversed(names)
            os.rename(scene.path("inbox/" + name), scene.path("inbox/" + other))

    with Edge() as scene:
        scene.near()
        scene.write("inbox/new/17.mine", near_text(ONE))
        scene.server.script = mark
        line = f"{scene.path('inbox')}/{names[0]}: it is gone. Run again"
        tally.same("a message that has another name than was listed stops the run", scene.run("c"), stopped(line))
        scene.server.script = None
        tally.same("then it is pushed", scene.run("c"), [0, "c:INBOX", "new push 1 -> 1", "ran"])
        tally.same("it is there once", scene.sides(), [{1: ("S", near_text(ONE))}, {1: ("S", ONE)}])


SCENES = [not_reached, broken_off, broken_off_once, not_given, given_at_last, gone_meanwhile, many_notices, long_heads, earlier_midway,
          given_twice, renamed_unread]
