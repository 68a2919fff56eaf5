"""The far side as a mail program sees and changes it: the INBOX of an account of a real server."""
import imaplib
import re

from tests.support.imap_side import IMAP_NAMES, LETTERS, imap_flags

ROW = re.compile(rb"\d+ \((?=.*\bUID (?P<uid>\d+))(?=.*\bFLAGS \((?P<flags>[^)]*)\))")


class RealSide:
    """A logged-in connection with INBOX selected, to be used in a `with`. The server is at `address`, with the user `u` and the password
    `p`."""

    def __init__(self, address):
        self.session = imaplib.IMAP4(*address)
        self.session.login("u", "p")
        self.asked("select", "INBOX")

    def __enter__(self):
        return self

    def __exit__(self, *_):
        self.session.logout()

    def asked(self, name, *words):
        """Makes a call, which has to succeed, and gives what comes back."""
        status, answer = getattr(self.session, name)(*words)
        if status != "OK":
            raise ConnectionError(f"{name} {words}: {answer}")
        return answer

    def messages(self):
        """All messages: UID, flags as letters, bytes. Other flags and keywords are left out."""
        if self.asked("select", "INBOX") == [b"0"]:
            return []
        rows = [row for row in self.asked("uid", "FETCH", "1:*", "(UID FLAGS BODY.PEEK[])") if isinstance(row, tuple)]
        return [(int(found["uid"]), letters_in(found["flags"]), data) for found, data in ((ROW.match(front), data) for front, data in rows)]

    def add(self, _name, data, letters):
        """A new message."""
        self.asked("append", "INBOX", imap_flags(letters).decode(), None, data)

    def set_flags(self, uid, old, new):
        for sign, letters in (("+", new - old), ("-", old - new)):
            if letters:
                self.asked("uid", "STORE", str(uid), f"{sign}FLAGS.SILENT", imap_flags(letters).decode())

    def remove(self, uid):
        self.set_flags(uid, frozenset(), frozenset("T"))
        self.asked("uid", "EXPUNGE", str(uid))

    def empty(self):
        """Removes all messages."""
        for uid, _, _ in self.messages():
            self.remove(uid)


def letters_in(names):
    """The letters of those of the six flags that are named."""
    return frozenset(LETTERS[name.lower()] for name in names.split() if name in IMAP_NAMES.values())
