"""The scenes of stale.py about what is bounded and hidden: memory, time, the password, and the line of progress."""
import itertools
import os
import re
import subprocess
import tempfile
import time

from tests.scenes.server_edges import peak_of
from tests.support.edge_scene import Edge, can_mount, far, near
from tests.support.explained import UNFIT_NEAR
from tests.support.imap_side import IMAP_NAMES
from tests.support.scene import ONE, TWO, near_text
from tests.support.scripted_server import BODY, Box
from tests.support.stale_scene import Stale

CLEAN = [0, "c:INBOX", "ran"]
MB = 2 ** 20
# How many bytes a stray file has, a message that is longer than its size, and endless replies; and how many MB of memory such a run may
# take beyond the usual.
STRAY, GROWN, ENDLESS, MEMORY = 3000 * MB, 48 * MB, 4 * MB, 16
# The limit of a message.
LIMIT = 16 * MB
# LIST replies are kept until the command has ended: each byte of them may take so many bytes of memory. After so many bytes of them the run
# stops, and it may have taken so many MB of memory beyond the usual. A server sends so many bytes of them.
LIST_COST, LIST_MOST, LIST_MEMORY, NAMES = 10, 16 * MB, 200, 100 * MB
MAILBOXES = 16000


def sparse(path, size):
    """A file of so many bytes that takes no room."""
    with open(path, "wb") as file:
        file.write(b"Subject: stray\n\n")
        file.truncate(size)


def stray_file(tally):
    """A stray file of 3 GB waits in `new`, and one that is known grew so."""
    with Stale(ONE) as scene:
        _, usual = peak_of(scene, "c")
        sparse(scene.path("inbox/new/17.stray"), STRAY)
        scene.write("inbox/new/18.mine", near_text(TWO))
        got, peak = peak_of(scene, "c")
        tally.tell(f"a stray file of {STRAY // MB} MB: {peak:.1f} MB of memory, else {usual:.1f} MB")
        tally.check("it is never read whole", peak < usual + MEMORY, f"{peak:.1f} MB")
        told = ["c:INBOX", "new push 3 -> 2", "unfit near 2", "ran", UNFIT_NEAR]
        tally.same("it is named as unfit, and the rest is synchronised", [got[0], sorted(got[1:])], [0, sorted(told)])
        got, peak = peak_of(scene, "c")
        tally.check("nor is it read again", peak < usual + MEMORY and got[0] == 0, f"{peak:.1f} MB, {got}")
        tally.same("the server has the others", scene.far_messages(), far(ONE, TWO))


def long_far_message(tally):
    """A message at the server has more than 16 MiB by its size: it is never fetched."""
    with Stale(ONE) as scene:
        _, usual = peak_of(scene, "c")
        scene.inbox().add(b"Subject: long\r\n\r\n" + b"x" * LIMIT + b"\r\n")
        scene.inbox().add(TWO)
        fetched = []

        def script(_, command):
            if command.verb == b"UID FETCH" and command.asks(BODY):
                fetched.append(command.uids())
            return False

        scene.server.script = script
        got, peak = peak_of(scene, "c")
        tally.same("a far message beyond the limit is not fetched", [fetched, got[0]], [[3], 0])
        tally.check("memory stays small", peak < usual + MEMORY, f"{peak:.1f} MB")


def grown_far_message(tally):
    """The server says a small size, and sends more where the message is fetched."""
    with Stale(ONE) as scene:
        _, usual = peak_of(scene, "c")
        scene.inbox().add(TWO)

        def script(talk, command):
            if not command.asks(BODY, 2):
                return False
            talk.stream.sendall(b"* 2 FETCH (UID 2 BODY[] {%d}\r\n" % GROWN)
            for _ in range(GROWN // MB):
                talk.stream.sendall(b"x" * MB)
            talk.send(b")")
            talk.done(command)
            return True

        scene.server.script = script
        got, peak = peak_of(scene, "c")
        tally.check("a message that is longer than its size is not kept whole", peak < usual + 2 * LIMIT // MB + MEMORY, f"{peak:.1f} MB")
        tally.check("it is told, and not copied", got[0] == 1 and any(line.startswith("mbsync: c:INBOX: ") for line in got[1:])
                    and sorted(scene.near_messages()) == [1], got)


def endless_replies(tally):
    """A server repeats replies of the kind that was asked for. Those that are kept stop the run at last; FLAGS is dropped as it comes, and
    of LIST replies more may come."""
    kinds = (("CAPABILITY", b"CAPABILITY", b"* CAPABILITY IMAP4rev1 IMAP4rev2\r\n", 1, MEMORY), ("UIDNEXT", b"SELECT", b"* OK [UIDNEXT 2] next\r\n", 1, MEMORY),
             ("one LIST line", b"LIST", b'* LIST () "/" "INBOX"\r\n', 0, MEMORY + ENDLESS // MB * LIST_COST),
             ("FLAGS", b"SELECT", b"* FLAGS (\\Seen)\r\n", 0, MEMORY),
             ("PERMANENTFLAGS", b"SELECT", b"* OK [PERMANENTFLAGS (%s)] flags\r\n" % b" ".join(sorted(IMAP_NAMES.values())), 1, MEMORY))
    for name, verb, line, status, memory in kinds:
        with Stale(ONE) as scene:
            _, usual = peak_of(scene, "c")
            sent = []
            scene.server.script = lambda talk, command, verb=verb, line=line, sent=sent: (
                command.verb == verb and (repeat(talk, itertools.repeat(line), ENDLESS, sent), False)[1])
            start = time.monotonic()
            got, peak = peak_of(scene, "c")
            tally.tell(f"{ENDLESS // MB} MB of {name}: {peak:.1f} MB of memory, else {usual:.1f} MB, {time.monotonic() - start:.1f} s: {got}")
            tally.same(f"endless {name} {'stops' if status else 'does not stop'} the run", got[0], status)
            tally.check(f"memory under endless {name} is bounded", sum(sent) > 0 and peak < usual + memory, f"{peak:.1f} MB")
            scene.server.script = None
            tally.same("without them the run is whole", [scene.run("c"), *scene.sides()], [CLEAN, near(ONE), far(ONE)])


def endless_names(tally):
    """A server lists mailboxes without an end: one name again and again, or always another one."""
    one = itertools.repeat(b'* LIST () "/" "work"\r\n')
    others = (b'* LIST () "/" "box%07d"\r\n' % number for number in itertools.count())
    for name, lines in (("one name", one), ("other names", others)):
        with Edge(ONE, create="Both") as scene:
            _, usual = peak_of(scene, "all")
            sent = []
            scene.server.script = lambda talk, command, lines=lines, sent=sent: (
                command.verb == b"LIST" and (repeat(talk, lines, NAMES, sent), False)[1])
            got, peak = peak_of(scene, "all")
            tally.tell(f"endless LIST replies with {name}: {peak:.1f} MB of memory, else {usual:.1f} MB: {got}")
            tally.check("they stop the run", got[0] == 1, str(got))
            tally.check("where they are too many, and long before all have come", LIST_MOST - MB < max(sent) < 3 * LIST_MOST, str(sent))
            tally.check("memory is bounded", peak < usual + LIST_MEMORY, f"{peak:.1f} MB")
            scene.server.script = None
            tally.same("without them the run is whole", [scene.run("all"), *scene.sides()], [[0, "all:INBOX", "ran"], near(ONE), far(ONE)])


def repeat(talk, lines, most, sent):
    """Says so many bytes of lines, as long as someone listens, and notes how many it said."""
    sent.append(0)
    try:
        while sent[-1] < most:
            some = b"".join(itertools.islice(lines, 10000))
            talk.stream.sendall(some)
            sent[-1] += len(some)
    except (BrokenPipeError, ConnectionResetError):
        # The client has had enough.
        return


def many_mailboxes(tally):
    """Mailboxes are chosen in a time that grows little faster than their number."""
    seconds = []
    for count in (MAILBOXES // 4, MAILBOXES):
        with Edge(patterns="*", create="Both") as scene:
            # In an order that is none.
            scene.server.boxes = {f"box{number * 7919 % count:05}": Box() for number in range(count)}
            times = []
            for _ in range(3):
                start = time.monotonic()
                got = scene.run("-l", "all")
                times.append(time.monotonic() - start)
            tally.same(f"{count} mailboxes are listed", [got[0], len(got)], [0, count + 1])
            seconds.append(min(times))
    tally.tell(f"{MAILBOXES // 4} mailboxes in {seconds[0]:.2f} s, {MAILBOXES} in {seconds[1]:.2f} s")
    tally.check("four times as many take less than six times as long", seconds[1] < 6 * seconds[0] + 0.2, str(seconds))


def hidden_password(tally):
    """The password has a quote and a backslash, and the server gives the line of the LOGIN back."""
    password = 'very"se\\cret'
    sent = r"very\"se\\cret"
    for name, words in (("the line as it was sent", b'NO bad login: LOGIN "u" "very\\"se\\\\cret"'), ("its text", b'NO user u with very"se\\cret is unknown'),
                        ("the sent password alone", b'NO very\\"se\\\\cret')):
        with Edge(ONE) as scene:
            with open(scene.path(".mbsyncrc"), encoding="ascii") as file:
                text = file.read()
            scene.configure(text.replace("Pass p\n", f'Pass "{sent}"\n'))
            asked = []

            def script(talk, command, words=words, asked=asked):
                if command.verb != b"LOGIN":
                    return False
                asked.append(command.words)
                talk.done(command, words)
                return True

            scene.server.script = script
            told = "\n".join(map(str, scene.run("c")))
            tally.check("the password is sent as it has to be", bool(asked) and sent.encode() in asked[0], str(asked))
            tally.check(f"a server that gives back {name} is not repeated", not any(it in told for it in (password, sent, "cret", "se\\\\")), told)
            tally.check("the rejected login is told", "rejected the login" in told, told)


def whole_seconds(tally):
    """The mailbox stands on a file system whose times are whole seconds."""
    if not can_mount():
        return tally.skip("times of whole seconds", "nothing can be mounted here")
    with tempfile.TemporaryDirectory() as folder:
        image = os.path.join(folder, "image")
        sparse(image, 8 * MB)
        try:
            subprocess.run(["mkfs.ext2", "-q", "-F", "-I", "128", image], check=True, capture_output=True)
        except (OSError, subprocess.CalledProcessError):
            return tally.skip("times of whole seconds", "mkfs.ext2 makes no file system here")
        with Stale() as scene:
            os.makedirs(scene.path("inbox"))
            if subprocess.run(["mount", "-o", "loop", image, scene.path("inbox")], capture_output=True, check=False).returncode != 0:
                return tally.skip("times of whole seconds", "no file system in a file can be mounted here")
            try:
                whole_seconds_in(tally, scene)
            finally:
                subprocess.run(["umount", scene.path("inbox")], check=True)
    return None


def whole_seconds_in(tally, scene):
    """Runs on such a file system, with a reader that renames files beside them."""
    for _ in range(20):
        scene.inbox().add(ONE)
    wrong = []
    for number in range(8):
        uid = 1 + number % 20
        told = scene.meanwhile("c", when=lambda command: command.verb == b"SELECT",
                               do=lambda uid=uid: scene.near_messages() and scene.mark_near(uid, "S" if uid % 2 else "F"))
        if told[0] != 0 and "store fault" in " ".join(map(str, told)):
            wrong.append(told)
    tally.same("no false fault is told", wrong, [])
    tally.same("all messages are there", [len(it) for it in scene.sides()], [20, 20])


def progress(tally):
    """On a terminal the line of progress shows what a silent server is waited for."""
    for verb, words in ((b"CAPABILITY", "waiting for server"), (b"LOGIN", "logging in"), (b"LIST", "listing mailboxes"), (b"SELECT", "opening the mailbox")):
        with Stale(ONE) as scene:
            shown = []

            def script(_, command, verb=verb, shown=shown, scene=scene):
                if command.verb == verb and not shown:
                    time.sleep(0.5)
                    with open(scene.path("typescript"), "rb") as file:
                        shown.append(re.sub(rb"[^ -~]+", b"|", file.read()).decode())
                return False

            scene.server.script = script
            scene.run_on_terminal("c", out=scene.path("told"))
            tally.same(f"a server that is silent at {verb.decode()}: the line of progress ends with what it is waited for",
                       [text.rpartition(": ")[2] for text in shown], [f"{words} .."])


SCENES = [stray_file, long_far_message, grown_far_message, endless_replies, endless_names, many_mailboxes, hidden_password, whole_seconds, progress]
