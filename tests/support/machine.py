"""A machine of a person: a home folder with a near mailbox and mbsync, and who reads mail there; and the server that all machines share."""
import os
import random
import re
import shutil
import subprocess
import tempfile
import threading
import time
from contextlib import suppress

from tests.support.configuration import imap_store
from tests.support.maildir_side import MaildirSide
from tests.support.scene import HOME_STORE, MARK
from tests.support.scripted_server import ScriptedServer

CHANNEL = """\
Channel c
Far :far:
Near :near:
Create Near
Expunge Both
"""
NAME = re.compile(rb"^Message-ID: <(\w+)@machines>\r?$", re.MULTILINE)
FLAGS = "DFRS"
MOST_SECONDS = 300


def message(name):
    """The bytes of a message of this name, with line ends CR LF."""
    return b"Message-ID: <%s@machines>\r\nSubject: %s\r\n\r\nThe text of %s.\r\n" % ((name.encode(),) * 3)


def name_of(data):
    return NAME.search(data)[1].decode()


def plain(data):
    """The bytes of a message without its mark line, with line ends CR LF."""
    return MARK.sub(b"", data).replace(b"\r\n", b"\n").replace(b"\n", b"\r\n")


class SharedServer(ScriptedServer):
    """A server to which several clients are connected at once. It does one command after another; `act` is called before each, and holds
    the mailbox as long."""

    def __init__(self):
        super().__init__()
        self.one = threading.RLock()
        self.act = None
        self.script = self.in_turn

    def inbox(self):
        return self.boxes["INBOX"]

    def in_turn(self, talk, command):
        with self.one:
            if self.act:
                self.act()
            talk.answer(command)
        return True

    def messages(self):
        """Name, flags and bytes of each message."""
        with self.one:
            return [(name_of(data), letters, plain(data)) for letters, data in self.inbox().messages.values()]


class Machine:
    """One of the machines. `removable` are the names of the messages that may be removed: they stood on all machines when all was quiet.
    `usual` is how many seconds a run has taken lately."""

    def __init__(self, program, server, number):
        self.program, self.number = program, number
        self.home = tempfile.mkdtemp(prefix="machine-")
        with open(f"{self.home}/.mbsyncrc", "w", encoding="ascii") as file:
            file.write(imap_store(server.port) + HOME_STORE + CHANNEL)
        self.near = MaildirSide(f"{self.home}/inbox")
        self.told, self.usual = [], 0.05

    def close(self):
        shutil.rmtree(self.home)

    def start(self):
        environment = {**os.environ, "HOME": self.home}
        return subprocess.Popen([self.program, "c"], env=environment, stdin=subprocess.DEVNULL, stdout=subprocess.PIPE, stderr=subprocess.PIPE)

    def run(self, share=None):
        """A run, killed after this share of the usual time where it is given. What it printed stands in `told`, the last run first."""
        began, process = time.monotonic(), self.start()
        try:
            out, faults = process.communicate(timeout=MOST_SECONDS if share is None else share * self.usual)
            self.usual += 0.3 * (time.monotonic() - began - self.usual)
        except subprocess.TimeoutExpired:
            process.kill()
            out, faults = process.communicate()
        self.told.insert(0, [process.returncode, *(out + faults).decode("latin-1").splitlines()])
        return self.told[0]

    def messages(self):
        """Name, flags and bytes of each message."""
        return [(name_of(data), letters, plain(data)) for _, letters, data in self.near.messages()]

    # ---- who reads mail there

    def files(self, names=None):
        """The path, the parts of the file name and the name of each message, or of those of these names."""
        found = []
        for path, parts in list(self.near.files()):
            # A run may have given the file another name just then.
            with suppress(FileNotFoundError), open(path, "rb") as file:
                name = name_of(file.read())
                if names is None or name in names:
                    found.append((path, parts, name))
        return found

    def rename(self, path, parts, letters):
        uid = f",U={parts['uid']}" if parts["uid"] else ""
        os.rename(path, f"{self.near.path}/cur/{parts['base']}{uid}:2,{''.join(sorted(letters))}")

    def flag(self, rng):
        """Sets or clears a flag of a message."""
        path, parts, name = rng.choice(self.files())
        self.rename(path, parts, set(parts["letters"] or "") ^ {rng.choice(FLAGS)})
        return f"machine {self.number} flags {name}"

    def mark(self, rng, removable, gone):
        """Marks a message as deleted."""
        path, parts, name = rng.choice(self.files(removable))
        self.rename(path, parts, {*(parts["letters"] or ""), "T"})
        gone.add(name)
        return f"machine {self.number} marks {name}"

    def remove(self, rng, removable, gone):
        """Removes a message."""
        path, _, name = rng.choice(self.files(removable))
        os.remove(path)
        gone.add(name)
        return f"machine {self.number} removes {name}"

    def deliver(self, name):
        """Delivers a message."""
        self.near.add(f"1700000000.{name}.machines", message(name).replace(b"\r\n", b"\n"), random.Random(name).choice(["", "S"]))
        return f"machine {self.number} delivers {name}"


class Telephone:
    """A client that is always connected."""

    def __init__(self, server):
        self.server = server

    def chosen(self, rng, names=None):
        """The UID and flags of a message, or of one of these names, and its name."""
        found = [(uid, letters, name_of(data)) for uid, (letters, data) in self.server.inbox().messages.items()]
        return rng.choice([it for it in found if names is None or it[2] in names])

    def flag(self, rng):
        uid, letters, name = self.chosen(rng)
        self.server.inbox().flag(uid, letters ^ {rng.choice(FLAGS)})
        return f"telephone flags {name}"

    def mark(self, rng, removable, gone):
        uid, letters, name = self.chosen(rng, removable)
        self.server.inbox().flag(uid, letters | {"T"})
        gone.add(name)
        return f"telephone marks {name}"

    def remove(self, rng, removable, gone):
        uid, _, name = self.chosen(rng, removable)
        del self.server.inbox().messages[uid]
        gone.add(name)
        return f"telephone removes {name}"

    def deliver(self, name):
        self.server.inbox().add(message(name), random.Random(name).choice(["", "S"]))
        return f"a message comes: {name}"
