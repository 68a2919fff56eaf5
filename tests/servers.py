#!/usr/bin/env python3
"""Synchronises an account of a real server with mbsync and with isync, and compares what each has made.

The account is emptied first, and then filled: mailboxes within mailboxes, names with spaces, dots, brackets and letters beyond ASCII, one
that was renamed, one that cannot be selected, keywords. Both programs pull it into new folders, through a go-between that counts
connections and commands; then messages, flags and removals go both ways with mbsync; then both run with nothing to do.

It installs nothing. A server to try is cyrus (Debian 13: cyrus-imapd 3.10, which speaks IMAP4rev2). Its settings: altnamespace and
unixhierarchysep yes, allowplaintext yes, and a user whose INBOX was made with CREATE user/USER by an admin."""
import imaplib
import os
import pathlib
import re
import socket
import subprocess
import sys
import tempfile
import threading

sys.path.insert(0, str(pathlib.Path(__file__).resolve().parents[1]))
from tests.support.configuration import imap_store, maildir_store
from tests.support.listening import Listening
from tests.support.maildir_side import MaildirSide
from tests.support.measured import system_calls
from tests.support.places import MBSYNC, must_run, parser_of
from tests.support.tally import Tally

# The names of the mailboxes as the server takes them before IMAP4rev2 is enabled: in modified UTF-7 (RFC 3501, section 5.1.3).
NAMES = ["INBOX", "Archive", "Archive/2024", "Archive/2024/January", "Archive/2025", "Sent Items", "Drafts", "Junk", "Trash", "Work",
         "Work/Project A", "Work/Project B (old)", "Work/a.b.c", "Lists", "Lists/isync-devel", "R&-D", "x]y", "[Gmail]", "[Gmail]/All Mail",
         "O'Neill", "UPPER", "lower", "dot.name", "Entw&APw-rfe", "Gesendete Objekte", "&U,BTFw-", "&ZeVnLIqe-", "To be renamed", "plus+minus",
         "tilde~", "equals=sign", "at@sign", "very/deeply/nested/mail/box"]
RENAMED = ("To be renamed", "Renamed")
LISTED = re.compile(rb'\((?P<flags>[^)]*)\) (?:"/"|NIL) (?P<name>"(?:[^"\\]|\\.)*"|[^ ]+)')
COMMAND = re.compile(rb"^[A-Za-z0-9]+ [A-Za-z]", re.MULTILINE)
CHANNEL = """Channel c
Far :far:
Near :near:
Patterns * INBOX
Create Near
Expunge Both
"""


class Counting(Listening):
    """Takes each connection on to a server, and counts connections and commands."""

    def __init__(self, address):
        self.address, self.connections, self.commands = address, 0, 0
        super().__init__()

    def take(self, stream):
        self.connections += 1
        server = socket.create_connection(self.address)
        server.setsockopt(socket.IPPROTO_TCP, socket.TCP_NODELAY, 1)
        threading.Thread(target=self.carry, args=(stream, server, True), daemon=True).start()
        threading.Thread(target=self.carry, args=(server, stream, False), daemon=True).start()

    def carry(self, source, target, is_client):
        try:
            while piece := source.recv(1 << 16):
                self.commands += len(COMMAND.findall(piece)) if is_client else 0
                target.sendall(piece)
            target.shutdown(socket.SHUT_WR)
        except OSError:
            target.close()

    def taken(self):
        """How many connections and commands there were since it was asked last."""
        counted = (self.connections, self.commands)
        self.connections = self.commands = 0
        return counted


class Account:
    """An account of a server, as a mail program sees it."""

    def __init__(self, address, user, password):
        self.session = imaplib.IMAP4(*address)
        self.session.login(user, password)

    def ask(self, name, *words):
        status, answer = getattr(self.session, name)(*words)
        if status != "OK":
            raise RuntimeError(f"{name} {words}: {answer}")
        return answer

    def listed(self):
        """The mailboxes that can be selected."""
        rows = [LISTED.match(b"".join(row) if isinstance(row, tuple) else row) for row in self.ask("list")]
        rows = [row for row in rows if row and rb"\noselect" not in row["flags"].lower()]
        return [row["name"].strip(b'"').decode() for row in rows]

    def empty(self):
        """Removes all mailboxes but INBOX, and what that has."""
        for name in sorted(self.listed(), reverse=True):
            if name != "INBOX":
                self.session.delete(quoted(name))
        self.ask("select", "INBOX")
        self.session.store("1:*", "+FLAGS.SILENT", r"(\Deleted)")
        self.session.expunge()

    def fill(self):
        """Makes the mailboxes and their messages."""
        for name in NAMES[1:]:
            self.ask("create", quoted(name))
        for number, name in enumerate(NAMES):
            for copy in range(1 + number % 3):
                self.add(name, f"{number}-{copy}", r"(\Seen $Label1 a-keyword)" if copy else "()")
        self.ask("rename", *(quoted(name) for name in RENAMED))

    def add(self, name, word, flags="()"):
        self.ask("append", quoted(name), flags, None, f"Subject: {word}\r\nMessage-Id: <{word}@here>\r\n\r\nThe text of {word}.\r\n".encode())

    def select(self, name):
        self.ask("select", quoted(name))

    def messages(self, name):
        """The Message-Id of each message, and its six flags as letters."""
        self.select(name)
        rows = self.ask("uid", "FETCH", "1:*", "(FLAGS BODY.PEEK[])") if self.ask("search", None, "ALL") != [b""] else []
        return sorted(shown(row[1], row[0]) for row in rows if isinstance(row, tuple))


def quoted(name):
    return '"' + name.replace("\\", "\\\\").replace('"', '\\"') + '"'


def shown(data, flags=b""):
    """The Message-Id of a message, and whether it was seen, flagged and marked as deleted."""
    word = re.search(rb"^Message-Id: <(.*)@here>", data, re.MULTILINE)
    return word[1].decode() if word else None, tuple(flag in flags for flag in (rb"\Seen", rb"\Flagged", rb"\Deleted"))


def plain(name):
    """A name in modified UTF-7, as text."""
    return re.sub("&([^-]*)-", lambda it: decoded(it[1]), name)


def decoded(text):
    return ("+" + text.replace(",", "/") + "-").encode().decode("utf-7") if text else "&"


def near_boxes(folder):
    """The Message-Ids of the messages in each mailbox under a folder, and whether they were seen."""
    found = {}
    for path, parts, _ in os.walk(folder):
        if {"cur", "new", "tmp"} <= set(parts):
            name = os.path.relpath(path, folder)
            found[plain(name)] = sorted((shown(data)[0], "S" in letters) for _, letters, data in MaildirSide(path).messages())
    return found


class Programs:
    """Both programs, over one account."""

    def __init__(self, words, top):
        host, port = words.server.rsplit(":", 1)
        self.address, self.top, self.words = (host, int(port)), top, words
        self.between = Counting(self.address)

    def command(self, name):
        """The words of a run of the program of this name."""
        folder = os.path.join(self.top, name)
        is_isync = name == "isync"
        far, near = ("TLSType None\nAuthMechs LOGIN\nDisableExtension COMPRESS=DEFLATE\n", "SubFolders Verbatim\n") if is_isync else ("", "")
        os.makedirs(folder, exist_ok=True)
        stores = imap_store(self.between.port, "far", self.words.user, self.words.password, far) + maildir_store(folder, f"{folder}/INBOX", more=near)
        with open(folder + ".rc", "w", encoding="ascii") as file:
            file.write(stores + CHANNEL + ("SyncState *\n" if is_isync else ""))
        return [*(self.words.isync if is_isync else [self.words.program]), "-c", folder + ".rc", "c"]

    def run(self, name):
        """Status and last lines of a run, and its connections and commands."""
        done = subprocess.run(self.command(name), capture_output=True, text=True, timeout=600, check=False)
        return done.returncode, done.stdout + done.stderr, self.between.taken()

    def near(self, name):
        return near_boxes(os.path.join(self.top, name))


def pull(tally, programs):
    """Both programs pull the account."""
    for name in ("isync", "mbsync"):
        status, told, counted = programs.run(name)
        tally.same(f"{name} pulls the account", status, 0)
        tally.tell(f"{name}: {counted[0]} connections, {counted[1]} commands")
        if status != 0:
            tally.tell(told[-2000:])
    theirs, ours = programs.near("isync"), programs.near("mbsync")
    tally.tell(f"isync: {len(theirs)} mailboxes, {sum(map(len, theirs.values()))} messages; "
               f"mbsync: {len(ours)} mailboxes, {sum(map(len, ours.values()))} messages")
    tally.same("both have the same mailboxes", sorted(ours), sorted(theirs))
    tally.same("both have the same messages", ours, theirs)


def change(tally, programs, account):
    """New messages, flags and removals go both ways."""
    near = MaildirSide(os.path.join(programs.top, "mbsync", "Work"))
    near.add("1.near", b"Subject: near\nMessage-Id: <near@here>\n\nFrom the near side.\n", frozenset("S"))
    (uid, letters, _), *_ = [row for row in near.messages() if row[0]]
    near.set_flags(uid, letters, frozenset("FS"))
    MaildirSide(os.path.join(programs.top, "mbsync", "x]y")).remove(1)
    account.add("Lists/isync-devel", "far")
    account.select("Junk")
    account.ask("store", "1", "+FLAGS.SILENT", r"(\Deleted)")
    account.ask("expunge")
    for turn in range(2):
        status, told, _ = programs.run("mbsync")
        tally.same(f"changes go both ways ({turn + 1})", [status, told if status else ""], [0, ""])
    far = {plain(name): [(word, is_seen) for word, (is_seen, _, _) in account.messages(name)] for name in account.listed()}
    tally.same("both sides have the same", programs.near("mbsync"), far)


def rest(tally, programs):
    """Both programs run with nothing to do."""
    programs.run("isync")
    for name in ("isync", "mbsync"):
        status, told, counted = programs.run(name)
        calls = system_calls(programs.command(name))
        programs.between.taken()
        tally.same(f"{name} has nothing to do", [status, "new " in told], [0, False])
        tally.tell(f"{name}, nothing to do: {counted[0]} connections, {counted[1]} commands, {sum(calls.values()) if calls else '?'} calls")


def main():
    words = parser_of(__doc__)
    words.add_argument("server", metavar="HOST:PORT")
    words.add_argument("--user", default="u")
    words.add_argument("--password", default="p")
    words.add_argument("--program", default=MBSYNC, help="the built mbsync, if it is left out")
    words.add_argument("--isync", nargs="+", default=["mbsync"], help="the mbsync of the system (of Debian's package isync), if it is left out")
    words = words.parse_args()
    must_run(words.program)
    tally = Tally()
    with tempfile.TemporaryDirectory() as top:
        programs = Programs(words, top)
        account = Account(programs.address, words.user, words.password)
        account.empty()
        account.fill()
        pull(tally, programs)
        change(tally, programs, account)
        rest(tally, programs)
    tally.end()


if __name__ == "__main__":
    main()
