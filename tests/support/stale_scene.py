"""Scenes in which a person changes both sides while a plan is pending or a run is at work, and what a scene needs for that."""
import os
import signal
import threading
import time

from tests.support.configuration import imap_store
from tests.support.edge_scene import Edge
from tests.support.scene import HOME_STORE, near_text

CHANNEL = """\
Channel c
Far :far:
Near :near:
Create Near
Sync %s
Expunge %s
"""
# The guard reads the names again where its last look is older than a second.
LOOK_SECONDS = 1.3
GIVEN_UP = "given up"


def numbered(count):
    """So many messages, each with a subject of its own."""
    return [b"Subject: number %d\r\n\r\nThe text of %d.\r\n" % (number, number) for number in range(1, count + 1)]


class Stale(Edge):
    """A scene with one channel, whose messages stand on both sides with the same UIDs."""

    def __init__(self, *messages, expunge="Both", sync="Full", more=""):
        super().__init__(*messages)
        self.set_up(expunge, sync, more)
        if messages:
            self.run("c")
            # After the second run the near messages need not be read again.
            self.run("c")

    def set_up(self, expunge="Both", sync="Full", more=""):
        """The configuration, with these words and with further lines of the channel."""
        self.configure(imap_store(self.server.port) + HOME_STORE + CHANNEL % (sync, expunge) + more)

    # ---- what a person does

    def path_of(self, uid):
        """The path of the near message of this UID."""
        return self.near().path_of(uid)[0]

    def take_away(self, *uids):
        """Moves near files out of the mailbox; gives their paths there and the places where they were."""
        os.makedirs(self.path("away"), exist_ok=True)
        moved = []
        for uid in uids:
            path = self.path_of(uid)
            moved.append((self.path(f"away/{os.path.basename(path)}"), path))
            os.rename(path, moved[-1][0])
        return moved

    def put_back(self, moved):
        """Moves them back."""
        for away, path in moved:
            os.rename(away, path)

    def mark_near(self, uid, letters):
        """Gives a near message these flags in place of others."""
        self.near().set_flags(uid, None, frozenset(letters))

    def mark_far(self, uid, letters):
        """Gives a far message these flags in place of others."""
        self.inbox().flag(uid, letters)

    # ---- runs that are interrupted

    def kill_at(self, *words, when, after=False, how=signal.SIGKILL):
        """A run that ends by this signal where a command comes for which `when` is true: before the server does it, or after. Gives the
        status, or none where no such command came."""
        started, process = threading.Event(), []

        def script(talk, command):
            if not when(command):
                return False
            self.server.script = None
            if after:
                do_silently(talk, command)
            started.wait(10)
            process[0].send_signal(how)
            process[0].wait()
            return True

        # A script that was started in the background ignores SIGINT, and what it starts would, too.
        signal.signal(signal.SIGINT, signal.default_int_handler)
        self.server.script = script
        process.append(self.start(*words))
        started.set()
        process[0].communicate(timeout=600)
        is_met, self.server.script = self.server.script is None, None
        return process[0].returncode if is_met else None

    def cut_at(self, *words, when, after=False):
        """A run whose connection ends wherever such a command comes, before or after the server does it; what it prints."""
        def script(talk, command):
            if not when(command):
                return False
            if after and not done:
                do_silently(talk, command)
            done.append(1)
            talk.hang_up()
            return True

        done, self.server.script = [], script
        told, self.server.script = self.run(*words), None
        return told

    def meanwhile(self, *words, when, do, pause=0.0):
        """A run during which something is done once, before the server answers the first command for which `when` is true. Then a while
        passes before the answer."""
        def script(_, command):
            if not done and when(command):
                done.append(1)
                do()
                time.sleep(pause)
            return False

        done, self.server.script = [], script
        told, self.server.script = self.run(*words), None
        return told if done else ["nothing was done meanwhile", *told]

    # ---- what stands then

    def journal(self):
        """The lines of the journal, or none."""
        return (self.near().text(".mbsyncstate.journal") or "").splitlines()

    def logged(self):
        """How many steps of the pending plan are logged."""
        return sum(line[:2] in ("d ", "v ") for line in self.journal())

    def entries(self):
        """The entries of the state, as far UID, near UID and flags."""
        lines = (self.near().text(".mbsyncstate") or "").splitlines()
        return [tuple(line.split()[1:]) for line in lines if line.startswith("e ")]


def do_silently(talk, command):
    """Does what a command asks for, and drops the answer."""
    if command.verb == b"APPEND":
        talk.server.added, kept = lambda *_: True, talk.server.added
        try:
            talk.answer(command)
        finally:
            talk.server.added = kept
    else:
        talk.send = lambda *_: None
        talk.answer(command)
        del talk.send


def says(*verbs, count=1):
    """Whether a command is one of these, and the one of this number among those that this sees."""
    seen = []

    def when(command):
        if command.verb in verbs:
            seen.append(1)
            return len(seen) >= count
        return False

    return when


def names(verb, uid):
    """Whether a command is this one and names the message of this UID."""
    return lambda command: command.verb == verb and command.words.split(b" ")[0] == str(uid).encode()


def told_of(lines, *words):
    """Whether the run failed, and a line of advice after its fault has all of these words."""
    faults = [line for line in lines[1:] if line.startswith("  ")]
    return lines[0] == 1 and any(all(str(word) in line for word in words) for line in faults)


def given_up(lines):
    """Whether a run was stopped, and says that its plan was given up."""
    return lines[0] == 1 and any(line.endswith(": stopped") for line in lines[1:]) and any(GIVEN_UP in line for line in lines[1:])


def all_near(messages, **others):
    """What the near side has of these far messages, by the UIDs from 1 on, without flags but for these: `uid_2="T"`."""
    return {uid: (others.get(f"uid_{uid}", ""), near_text(data)) for uid, data in enumerate(messages, 1)}


def all_far(messages, **others):
    """The same of the far side."""
    return {uid: (others.get(f"uid_{uid}", ""), data) for uid, data in enumerate(messages, 1)}
