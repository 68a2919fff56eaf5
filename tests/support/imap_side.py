"""The far side as a mail program sees and changes it: the INBOX of trial-imapd, over raw sockets."""
import re
import socket

KEYWORDS = {"a": "$Label1", "k": "to-do"}
KEYWORD_LINES = [f"{letter} {name}" for letter, name in sorted(KEYWORDS.items())]
IMAP_NAMES = {"D": rb"\Draft", "F": rb"\Flagged", "P": b"$Forwarded", "R": rb"\Answered", "S": rb"\Seen", "T": rb"\Deleted",
              **{letter: name.encode() for letter, name in KEYWORDS.items()}}
LETTERS = {name.lower(): letter for letter, name in IMAP_NAMES.items()}
LISTED = re.compile(rb"\* \d+ FETCH \(UID (\d+) FLAGS \(([^)]*)\) RFC822.SIZE \d+\)\r\n")
BODY = re.compile(rb"\* \d+ FETCH \(UID (\d+) BODY\[\] \{(\d+)\}\r\n")


def imap_flags(letters):
    return b"(%s)" % b" ".join(IMAP_NAMES[letter] for letter in sorted(letters))


class ImapSide:
    """A logged-in connection with INBOX selected, to be used in a `with`."""

    def __init__(self, port):
        self.stream = socket.create_connection(("127.0.0.1", port), timeout=120)
        self.stream.setsockopt(socket.IPPROTO_TCP, socket.TCP_NODELAY, 1)
        self.tag = 0
        self.until(rb"\* OK ready")
        self.ask(b"LOGIN u p")
        self.ask(b"SELECT INBOX")

    def __enter__(self):
        return self

    def __exit__(self, *_):
        self.ask(b"LOGOUT")
        self.stream.close()

    def until(self, end):
        """All that comes, up to an end of this form."""
        told = bytearray()
        while not re.search(b"(?:^|\n)" + end + rb"[^\n]*\r\n\Z", told[-300:]):
            piece = self.stream.recv(1 << 20)
            if not piece:
                raise ConnectionError(f"the connection ended before {end}: {bytes(told[-200:])}")
            told += piece
        return bytes(told)

    def answer(self):
        """What comes back for the command that was sent; its last line has to say OK."""
        told = self.until(b"A%d " % self.tag)
        if b"A%d OK " % self.tag not in told[-300:]:
            raise ConnectionError(f"command {self.tag}: {told[-300:]}")
        return told

    def ask(self, command):
        """Sends a command, and gives what comes back."""
        self.tag += 1
        self.stream.sendall(b"A%d %s\r\n" % (self.tag, command))
        return self.answer()

    def messages(self):
        """All messages: UID, flags as letters, bytes."""
        flags = {int(uid): frozenset(LETTERS[name.lower()] for name in names.split())
                 for uid, names in LISTED.findall(self.ask(b"UID FETCH 1:* (UID FLAGS RFC822.SIZE)"))}
        told, place, bodies = self.ask(b"UID FETCH 1:* (UID BODY.PEEK[])"), 0, {}
        while found := BODY.match(told, place):
            place = found.end() + int(found[2])
            bodies[int(found[1])] = told[found.end():place]
            place += len(b")\r\n")
        return [(uid, letters, bodies[uid]) for uid, letters in flags.items()]

    def add(self, _name, data, letters):
        """A new message."""
        self.tag += 1
        self.stream.sendall(b"A%d APPEND INBOX %s {%d}\r\n" % (self.tag, imap_flags(letters), len(data)))
        self.until(rb"\+ go")
        self.stream.sendall(data + b"\r\n")
        self.answer()

    def set_flags(self, uid, old, new):
        for sign, letters in ((b"+", new - old), (b"-", old - new)):
            if letters:
                self.ask(b"UID STORE %d %sFLAGS.SILENT %s" % (uid, sign, imap_flags(letters)))

    def remove(self, uid):
        self.set_flags(uid, frozenset(), frozenset("T"))
        self.ask(b"UID EXPUNGE %d" % uid)
