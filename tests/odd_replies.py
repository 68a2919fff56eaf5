#!/usr/bin/env python3
"""Puts replies that mbsync does not ask for, and damaged ones, into its sessions.

Each of REPLIES is sent before the answer to the list of mailboxes, to that of the messages, and to one message: the run has to come to its
end, with each message there once. Each of STOPS may end a run, which has to report that; the next run, without it, has to come to its end.
The rows of the list of messages come in
two replies each, in many orders: each message is there once; where one stays half told, or is left out, the run stops, and nothing counts
as removed. Then lines of real servers, each damaged at a few places, are sent in the same places: each run has to end, with little memory. The server
is scripted_server.py."""
import os
import pathlib
import random
import sys

sys.path.insert(0, str(pathlib.Path(__file__).resolve().parents[1]))
from oracle.mail import unescaped
from tests.scenes.server_edges import peak_of
from tests.support.edge_scene import Edge, far, near
from tests.support.places import MBSYNC, REAL_LINES, must_run, parser_of
from tests.support.scene import ONE, TWO, Scene
from tests.support.scripted_server import BODY, LISTING
from tests.support.tally import Tally

REPLIES = [
    b"* OK still\there\r\n", b"* OK\r\n", b"* OK [\r\n", b"* OK bare\n", b"\r\n", b"* OK spaces behind   \r\n", b"* OK \xff\x00\r\n",
    b"* OK [UNSEEN 1]\r\n", b"* OK [HIGHESTMODSEQ 90060115194045001] ok\r\n", b"* OK [MAILBOXID (e90f7)] ok\r\n",
    b"* OK [URLMECH INTERNAL] ok\r\n", b"* OK [ALERT] back at noon\r\n", b"* NO [ALERT] the disk is nearly full\r\n", b"* NO\r\n",
    b"* BAD what\r\n", b"* CAPABILITY IMAP4rev1 IMAP4rev2 FOO=]\r\n", b"* CAPABILITY IMAP4rev2 " + b"X" * 300 + b"\r\n",
    b"* ENABLED CONDSTORE\r\n", b"* FLAGS (\\Seen foo]bar)\r\n", b"* FLAGS (\\Recent $Junk \\Seen)\r\n", b"* 0 RECENT\r\n",
    b"* 2 EXISTS \r\n", b"* STATUS INBOX (MESSAGES 3)\r\n", b"* STATUS {5}\r\nINBOX (MESSAGES 3)\r\n",
    b'* ESEARCH (TAG "A4") UID ALL 1:3\r\n', b"* VANISHED (EARLIER) 41,43:116\r\n", b'* METADATA "" (/shared/comment {4}\r\nabcd)\r\n',
    b'* ID ("name" "Cyrus" "version" {3}\r\n1.0)\r\n', b"* ID NIL\r\n", b'* QUOTA "" (STORAGE 10 512)\r\n', b'* QUOTAROOT INBOX ""\r\n',
    b"* ACL INBOX u lrswipkxtecda\r\n", b'* NAMESPACE (("" "/")) NIL NIL\r\n', b"* THREAD (2)(3 6)\r\n", b"* SEARCH 2 3\r\n",
    b"* LANGUAGE (EN)\r\n", b'* XLIST (\\Inbox) "/" "INBOX"\r\n', b'* LSUB () "/" INBOX\r\n', b"* 1 FETCH (FLAGS (\\Seen))\r\n",
    b"* 1 FETCH (FLAGS (\\Recent a]b) UID 1)\r\n", b"* 1 FETCH (UID 1)\r\n", b"* 1 FETCH (UID 1 MODSEQ (5))\r\n",
    b"* 1 FETCH (X-GM-MSGID 1278455344230334865 UID 1)\r\n", b"* 1 FETCH (BINARY[] {3}\r\nabc UID 1)\r\n",
    b'* 1 FETCH (ENVELOPE (NIL "x]" {2}\r\nab NIL) UID 1)\r\n', b'* LIST (\\Noselect) "/" "nothing"\r\n',
    b'* LIST (\\NonExistent) "/" gone\r\n', b'* LIST () "/" x]y\r\n', b"* LIST () NIL [Gmail]\r\n",
    b'* LIST () "/" {9}\r\nEntw\xc3\xbcrfe\r\n', b'* LIST () "/" "New" ("OLDNAME" ("Old"))\r\n',
]
STOPS = [b"* PREAUTH hello\r\n", b"* BYE until tomorrow\r\n", b"+ idling\r\n", b"* 1 FETCH (UID 1 FLAGS () RFC822.SIZE 99999999999)\r\n",
         b"* 1 FETCH (UID x\r\n", b"* OK " + b"x" * 70000 + b"\r\n", b"* METADATA {99999999}\r\n"]
PLACES = {"the mailboxes": lambda command: command.verb == b"LIST", "the messages": lambda command: command.asks(LISTING),
          "a message": lambda command: command.asks(BODY, 2)}
PULLED = ["c:INBOX", "new pull 1 -> 1", "new pull 2 -> 2", "ran"]
# How many damaged lines are said in one run, and how many MB of memory it may take.
LINES, MEMORY = 50, 64


def saying(text, place):
    """A script by which the server says this before its answer there."""
    return lambda talk, command: place(command) and talk.stream.sendall(text)


def without_notices(told):
    return [line for line in told if not str(line).startswith(("mbsync: alert from", "mbsync: skipped for"))]


def odd(tally):
    """Replies that nobody asked for."""
    for reply in REPLIES:
        for name, place in PLACES.items():
            with Edge(ONE, TWO) as scene:
                scene.server.script = saying(reply, place)
                got = [without_notices(scene.run("c")), scene.sides()]
                tally.same(f"{reply[:60]!r} before {name}", got, [[0, *PULLED], [near(ONE, TWO), far(ONE, TWO)]])


def stops(tally):
    """Replies that may end a run."""
    for reply in STOPS:
        for name, place in PLACES.items():
            with Edge(ONE, TWO) as scene:
                scene.server.script = saying(reply, place)
                told = scene.run("c")
                is_told = told[0] == 0 or any(str(line).startswith("mbsync: ") for line in told)
                tally.same(f"{reply[:60]!r} before {name}: it ends, or tells why not", is_told, True)
                scene.server.script = None
                tally.same("then all is there", [scene.run("c")[0], scene.sides()], [0, [near(ONE, TWO), far(ONE, TWO)]])


FLAGS, SIZE, WHOLE = b"FLAGS (\\Seen)", b"RFC822.SIZE %d", b"FLAGS (\\Seen) RFC822.SIZE %d"
FOUND = ["c:INBOX", "ran"]


def row(uid, items, messages=(ONE, TWO)):
    """A row of the list of messages."""
    items = items % len(messages[uid - 1]) if b"%" in items else items
    return b"* %d FETCH (UID %d %s)\r\n" % (uid, uid, items)


# Rows that tell messages 1 and 2 between them: in each the later flags of a message are \Seen.
GATHERED = {
    "flags, then size": [(1, FLAGS), (1, SIZE), (2, FLAGS), (2, SIZE)],
    "size, then flags": [(1, SIZE), (1, FLAGS), (2, SIZE), (2, FLAGS)],
    "all flags, then all sizes": [(1, FLAGS), (2, FLAGS), (1, SIZE), (2, SIZE)],
    "all sizes, then all flags, from the end": [(2, SIZE), (1, SIZE), (2, FLAGS), (1, FLAGS)],
    "flags twice": [(1, b"FLAGS ()"), (1, FLAGS), (1, SIZE), (2, WHOLE)],
    "one whole, one in halves": [(1, WHOLE), (2, FLAGS), (2, SIZE)],
    "flags of a message that is told whole then": [(1, FLAGS), (1, WHOLE), (2, WHOLE)],
    "flags of a message that was told whole": [(1, WHOLE), (2, WHOLE), (1, b"FLAGS ()")],
    "one whole twice": [(1, WHOLE), (1, WHOLE), (2, WHOLE)],
    "from the end": [(2, WHOLE), (1, WHOLE)],
}
# Rows that do not, and what is said of them.
UNTOLD = {
    "no row": ([], "lacks 2 of"),
    "one row": ([(1, WHOLE)], "lacks 1 of"),
    "one row twice": ([(1, WHOLE), (1, WHOLE)], "lacks 1 of"),
    "a message without its size": ([(1, WHOLE), (2, FLAGS)], "UID 2"),
    "a message without its flags": ([(1, WHOLE), (2, SIZE)], "UID 2"),
    "a UID alone": ([(1, WHOLE), (2, b"MODSEQ (5)")], "UID 2"),
    "halves of two messages": ([(1, FLAGS), (2, SIZE)], "UID 1"),
}


def listing(rows, end=b"OK done", before=b""):
    """A script by which the server tells these rows in place of its list of messages."""
    def script(talk, command):
        if not command.asks(LISTING):
            return False
        talk.stream.sendall(before + b"".join(row(*it) for it in rows) + command.tag + b" " + end + b"\r\n")
        return True
    return script


def synced():
    """A scene with two messages on both sides that are seen."""
    scene = Edge(ONE, TWO)
    for uid in (1, 2):
        scene.inbox().flag(uid, "S")
    scene.run("--expunge", "c")
    return scene


def gathered(tally):
    """Messages in more rows than one."""
    for name, rows in GATHERED.items():
        with synced() as scene:
            before = scene.sides()
            scene.server.script = listing(rows)
            tally.same(f"{name}: nothing is to be done", scene.run("--expunge", "c"), [0, *FOUND])
            tally.same(f"{name}: each message is there", scene.sides(), before)


def untold(tally):
    """Messages that are told by half, or left out."""
    for name, (rows, text) in UNTOLD.items():
        with synced() as scene:
            before = scene.sides()
            scene.server.script = listing(rows)
            told = scene.run("--expunge", "c")
            tally.same(f"{name}: the run stops", told[0], 1)
            tally.same(f"{name}: it says why", text in "\n".join(map(str, told)), True)
            tally.same(f"{name}: nothing counts as removed", scene.sides(), before)
            scene.server.script = None
            tally.same(f"{name}: the next run has nothing to do", [scene.run("--expunge", "c"), scene.sides()], [[0, *FOUND], before])


def changing(tally):
    """Others change the mailbox while it is listed, or the server does not list it."""
    with synced() as scene:
        before = scene.sides()
        scene.server.script = listing([(1, WHOLE), (2, WHOLE)], before=b"* 3 EXISTS\r\n")
        tally.same("a message that arrives meanwhile need not be told", [scene.run("--expunge", "c"), scene.sides()], [[0, *FOUND], before])
        scene.server.script = listing([(1, WHOLE)], before=b"* 3 EXISTS\r\n* 2 EXPUNGE\r\n")
        tally.same("a message that is removed before it is told", [scene.run("--expunge", "c")[0], sorted(scene.near_messages())], [0, [1]])
    with synced() as scene:
        before = scene.sides()
        scene.server.script = listing([(1, WHOLE)], end=b"NO busy")
        tally.same("NO ends a list in its middle", [scene.run("--expunge", "c")[0], scene.sides()], [1, before])
    with Edge() as scene:
        tally.same("an empty mailbox", [scene.run("c")[0], scene.sides()], [0, [{}, {}]])


def real_lines():
    """What the servers say in real-lines.txt."""
    with open(REAL_LINES, "rb") as lines:
        return [unescaped(line[2:].rstrip(b"\n")) for line in lines if line.startswith(b"r ")]


def damaged(line, chance):
    """The line with a few bytes changed, left out, said twice, or put in."""
    line = bytearray(line)
    for _ in range(chance.randint(1, 4)):
        at = chance.randrange(len(line) + 1)
        kind = chance.randrange(4)
        if kind == 0:
            line[at:at + 1] = bytes([chance.randrange(256)])
        elif kind == 1:
            del line[at:at + chance.randint(1, 5)]
        elif kind == 2:
            line[at:at] = line[max(0, at - chance.randint(1, 9)):at]
        else:
            line[at:at] = chance.choice([b"{", b"}", b'"', b"(", b")", b"]", b"{7}\r\n", b"{0}\r\n", b"\r", b"\n", b"\\", b" "])
    return bytes(line)


def broken(tally, count, seed):
    """Damaged lines."""
    chance, lines = random.Random(seed), real_lines()
    most = ended = 0
    places = list(PLACES.values())
    for run in range(count // LINES):
        text = b"".join(damaged(chance.choice(lines), chance) for _ in range(LINES))
        with Edge(ONE, TWO) as scene:
            scene.server.script = saying(text, places[run % len(places)])
            told, peak = peak_of(scene, "c")
            most = max(most, peak)
            ended += told[0] in (0, 1)
    tally.tell(f"{count} damaged lines, seed {seed}: at most {most:.1f} MB")
    tally.same("each run has ended", ended, count // LINES)
    tally.same(f"memory stays below {MEMORY} MB", most < MEMORY, True)


def main():
    words = parser_of(__doc__)
    words.add_argument("--program", default=MBSYNC, help="the built mbsync, if it is left out")
    words.add_argument("--damaged", type=int, default=10000, metavar="N", help="how many damaged lines (10000)")
    words.add_argument("--seed", type=int, default=1)
    words = words.parse_args()
    Scene.program = os.path.abspath(words.program)
    must_run(Scene.program)
    tally = Tally()
    odd(tally)
    stops(tally)
    gathered(tally)
    untold(tally)
    changing(tally)
    broken(tally, words.damaged, words.seed)
    tally.end()


if __name__ == "__main__":
    main()
