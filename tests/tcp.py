#!/usr/bin/env python3
"""Makes the calls of a client over TCP against trial-imapd as a process of its own, and ends at the first wrong answer.

tests_of_runs makes them, by lines of a script of `client` (crates/test_client): on a mailbox with 1,000 messages it lists, fetches, seeks
marks, appends, sets and clears flags and expunges, makes a second mailbox and adds to it, and connects anew in between. Each answer is
compared with what this script works out. Then a connection of the script's own, without the client, reads both mailboxes, which have to
hold what the calls leave; and at last the client meets a server that is gone."""
import os
import pathlib
import sys
import tempfile
import time

sys.path.insert(0, str(pathlib.Path(__file__).resolve().parents[1]))
from oracle.mail import SIX, escaped
from tests.support import places, played
from tests.support.tally import Tally, Wrong
from tests.support.trial_imapd import Server, build, world

NAME = "tests_of_runs"
MESSAGES = 1000
# The letters of flags, and their names in the order in which the server has them.
NAMES = [("R", b"\\Answered"), ("T", b"\\Deleted"), ("D", b"\\Draft"), ("F", b"\\Flagged"), ("S", b"\\Seen"), ("P", b"$Forwarded")]
SHOWN_MAX, BEGIN = 200, 60


def mark(n):
    return "%012d" % n


def text_of(n):
    """A message with a mark; each tenth is longer than a piece of 4096 bytes."""
    head = b"X-TUID: %s\r\nSubject: %d\r\n\r\n" % (mark(n).encode(), n)
    return head + b"0123456789 )\xff\r\n" * (400 if n % 10 == 0 else n % 7)


def quoted(text):
    """Bytes as the client shows them."""
    if len(text) <= SHOWN_MAX:
        return f'"{escaped(text)}"'
    return f'"{escaped(text[:BEGIN])}" .. ({len(text)} bytes)'


def letters(flags):
    return "".join(letter for letter in SIX if letter in flags) or "-"


class Mailbox:
    """A mailbox as it has to be: flags and bytes of its messages by their UIDs, and the next UID."""

    def __init__(self, name, validity, texts):
        self.name, self.validity, self.next = name, validity, len(texts) + 1
        self.messages = {uid: (set(), text) for uid, text in enumerate(texts, 1)}

    def listing(self):
        """As the client tells it, where the next UID is known."""
        rows = "".join(f"; {uid} {letters(flags)}" for uid, (flags, _) in sorted(self.messages.items()))
        return f"validity {self.validity}, next {self.next}{rows}"

    def append(self, text, flags):
        uid = self.next
        self.messages[uid] = (set(flags), text)
        self.next += 1
        return str(uid)

    def add_flags(self, uid, flags):
        if uid in self.messages:
            self.messages[uid][0].update(flags)
        return "done"

    def remove_flags(self, uid, flags):
        if uid in self.messages:
            self.messages[uid][0].difference_update(flags)
        return "done"

    def expunge(self, uids):
        for uid in uids:
            if uid in self.messages and "T" in self.messages[uid][0]:
                del self.messages[uid]
        return "done"

    def fetch(self, uid):
        return quoted(self.messages[uid][1]) if uid in self.messages else "none"

    def find_mark(self, text, least):
        line = b"X-TUID: %s\r\n" % text.encode()
        found = [uid for uid, (_, body) in self.messages.items() if uid >= least and body.startswith(line)]
        return str(min(found)) if found else "none"

    def replies(self, items):
        """What the server has to tell of all messages."""
        told = b""
        for place, (uid, (flags, text)) in enumerate(sorted(self.messages.items()), 1):
            names = b" ".join(name for letter, name in NAMES if letter in flags)
            told += b"* %d FETCH (UID %d " % (place, uid)
            if items == b"FLAGS":
                told += b"FLAGS (%s) RFC822.SIZE %d)\r\n" % (names, len(text))
            else:
                told += b"BODY[] {%d}\r\n%s)\r\n" % (len(text), text)
        return told


class Script:
    """Calls, and what they have to answer."""

    def __init__(self):
        self.lines, self.told = [], []

    def call(self, line, answer):
        self.lines.append(line)
        self.told += [line, "  " + answer]

    def log_in(self, connect):
        self.call(connect, "done")
        self.call("login u p", "done")

    def list(self, mailbox):
        self.call("list", mailbox.listing())

    def append(self, mailbox, text, flags):
        self.call(f'append {letters(flags)} "{escaped(text)}"', mailbox.append(text, flags))

    def fetch(self, mailbox, uid):
        self.call(f"fetch {uid}", mailbox.fetch(uid))

    def find_mark(self, mailbox, text, least):
        self.call(f"find_mark {text} {least}", mailbox.find_mark(text, least))

    def add_flags(self, mailbox, uid, flags):
        self.call(f"add_flags {uid} {letters(flags)}", mailbox.add_flags(uid, flags))

    def remove_flags(self, mailbox, uid, flags):
        self.call(f"remove_flags {uid} {letters(flags)}", mailbox.remove_flags(uid, flags))

    def expunge(self, mailbox, uids):
        self.call("expunge " + " ".join(str(uid) for uid in uids), mailbox.expunge(uids))


def read_all(script, inbox):
    """Calls that change nothing."""
    script.list(inbox)
    for uid in [*range(1, MESSAGES + 1, 37), MESSAGES, MESSAGES + 1, 4294967294]:
        script.fetch(inbox, uid)
    for sought, least in ((1, 1), (500, 1), (500, 500), (500, 501), (MESSAGES, MESSAGES), (MESSAGES, MESSAGES + 1), (7777, 0)):
        script.find_mark(inbox, mark(sought), least)


def change_all(script, inbox):
    for n in range(MESSAGES + 1, MESSAGES + 101):
        script.append(inbox, text_of(n), {"S"} if n % 2 else set(SIX))
    for uid in range(1, 201):
        script.add_flags(inbox, uid, {"T", "F"} if uid % 2 else {"S", "P"})
    for uid in range(1, 101):
        script.remove_flags(inbox, uid, {"F", "S"})
    script.add_flags(inbox, 4294967294, {"S"})
    script.list(inbox)
    script.expunge(inbox, [*range(50, 151), 4294967294])
    script.expunge(inbox, list(range(1, MESSAGES + 101)))
    script.list(inbox)


def calls(inbox, work):
    script = Script()
    script.log_in("open")
    script.call("names", '"INBOX"')
    script.call("select Work", "Refused")
    script.call("select INBOX", "done")
    read_all(script, inbox)
    change_all(script, inbox)
    script.call("into_session", "done")
    script.call("create INBOX", "Refused")
    script.call("create Work", "done")
    script.call("names", '"INBOX" "Work"')
    script.log_in("reconnect")
    script.call("select Work", "done")
    script.list(work)
    script.append(work, text_of(1), {"D"})
    script.append(work, text_of(2), set())
    script.list(work)
    script.find_mark(work, mark(2), 1)
    script.call("into_session", "done")
    script.call("select INBOX", "done")
    script.list(inbox)
    script.call("into_session", "done")
    script.call("logout", "done")
    return script


def play(server, lines):
    """What the client tells of these calls."""
    first = ["case over TCP", f"over tcp 127.0.0.1:{server.port}"]
    answers, _ = played.play(NAME, "client", [*first, *lines])
    return [it for line, told in zip(lines, answers[len(first):]) for it in [line, *(f"  {answer}" for answer in told)]]


def compare(tally, found, wanted):
    """Compares lines of calls and answers up to the first that differs. Each answer is a check."""
    for number, (line, want) in enumerate(zip(found, wanted), 1):
        if line != want:
            raise Wrong(f"line {number}: {line[:300]!r} instead of {want[:300]!r}")
        tally.passes(line.startswith("  "))
    if len(found) != len(wanted):
        raise Wrong(f"{len(found)} lines instead of {len(wanted)}")


def told(connection, command):
    """What the server tells before it answers OK."""
    connection.tag += 1
    end = b"A%d OK done\r\n" % connection.tag
    connection.stream.sendall(b"A%d %s\r\n" % (connection.tag, command))
    data = b""
    while not data.endswith(end):
        piece = connection.stream.recv(1 << 20)
        if not piece:
            raise Wrong(f"the connection ended before {end!r}: {data[-200:]!r}")
        data += piece
    return data[:-len(end)]


def check_mailbox(tally, connection, mailbox):
    connection.ask(b"SELECT " + mailbox.name, b"OK [READ-WRITE] done")
    for items, words in ((b"FLAGS", b"(UID FLAGS RFC822.SIZE)"), (b"BODY", b"(UID BODY.PEEK[])")):
        if told(connection, b"UID FETCH 1:* " + words) != mailbox.replies(items):
            raise Wrong(f"{mailbox.name.decode()} does not hold what the calls leave: {items.decode()}")
        tally.passes()


def check_server(tally, server, mailboxes):
    connection = server.connect()
    connection.ask(b"LOGIN u p")
    for mailbox in mailboxes:
        check_mailbox(tally, connection, mailbox)
    connection.logout()


def check_calls(tally, folder):
    """Makes the calls, and looks at their answers and at what they leave."""
    inbox = Mailbox(b"INBOX", 1, [text_of(n) for n in range(1, MESSAGES + 1)])
    work = Mailbox(b"Work", 2, [])
    file = os.path.join(folder, "tcp.world")
    with open(file, "wb") as text:
        text.write(world([text_of(n) for n in range(1, MESSAGES + 1)]))
    # One connection is that of this script which waits until the server listens, two are the client's, one reads the mailboxes.
    server = Server(file, 4)
    try:
        server.connect().logout()
        script = calls(inbox, work)
        start = time.monotonic()
        compare(tally, play(server, script.lines), script.told)
        seconds = time.monotonic() - start
        check_server(tally, server, [inbox, work])
        if server.ended() != 0:
            raise Wrong("trial-imapd ends with a fault")
        tally.passes()
        compare(tally, play(server, ["open", "open"]), ["open", "  Stopped", "open", "  Stopped"])
    finally:
        if server.process.poll() is None:
            server.stop()
    print(f"{len(script.lines)} calls over TCP are answered as they have to be, in {seconds:.2f} s; both mailboxes hold what they leave")


def main():
    places.parser_of(__doc__).parse_args()
    build()
    places.build(NAME)
    tally = Tally()
    with tempfile.TemporaryDirectory() as folder, tally.until_wrong():
        check_calls(tally, folder)
    tally.end()


if __name__ == "__main__":
    main()
