"""Mailboxes with which mbsync-start-over begins anew, and what both sides have of their messages."""
import os
import subprocess
from collections import Counter

from tests.support.configuration import imap_store, maildir_store
from tests.support.edge_scene import Edge
from tests.support.places import TOP
from tests.support.scripted_server import BODY, Box

COMMAND = os.path.join(TOP, "bin", "mbsync-start-over")
CHANNEL = "Channel c\nFar :far:\nNear :near:\nCreate Near\n"
PATTERNS = "Channel all\nFar :far:\nNear :near:\nPatterns * INBOX\nCreate Both\n"


def message(subject):
    return f"Subject: {subject}\r\n\r\ntext\r\n".encode()


def subject_of(data):
    return next(line for line in data.decode().splitlines() if line.startswith("Subject: "))[len("Subject: "):]


class Begun(Edge):
    """A mailbox with six far messages, and the command."""

    def __init__(self, count=6, more="", inbox="~/inbox", path="~/mail"):
        super().__init__(*(message(f"far {number}") for number in range(1, count + 1)))
        self.configure(imap_store(self.server.port) + maildir_store(path, inbox) + CHANNEL + more + "\n" + PATTERNS + more)

    def start_over(self, *words):
        known = self.words(words, True)
        known["args"] = [COMMAND, "--mbsync", self.program, *words]
        done = subprocess.run(**known, capture_output=True, timeout=300, check=False)
        return [done.returncode, *(done.stdout + done.stderr).decode().replace(self.home, "~").splitlines()]

    def breaks_at(self, number):
        """Connections drop before this body is sent, and from then on at once."""
        def script(talk, command):
            self.bodies += command.asks(BODY)
            if self.bodies >= number:
                talk.hang_up()
            return self.bodies >= number
        self.bodies, self.server.script = 0, script

    def make_anew(self, validity=2):
        """The server has lost its UIDs: the same messages, another UIDVALIDITY."""
        self.server.script = self.server.added = None
        box = self.inbox()
        self.server.boxes["INBOX"] = Box([data for _, data in box.messages.values()], validity)

    def add_near(self, name, subject, box="inbox"):
        self.write(f"{box}/new/{name}", message(subject).replace(b"\r\n", b"\n"))

    def counts(self, box="inbox"):
        """How often each subject is on each side."""
        near = Counter(subject_of(data) for _, data in self.near_messages(box).values())
        return dict(near), dict(Counter(subject_of(data) for _, data in self.far_messages().values()))


def is_once(tally, what, scene, *subjects, box="inbox"):
    """After the next run each of these is on both sides once, and nothing else."""
    told = scene.run("c")
    wanted = {subject: 1 for subject in subjects}
    tally.check(f"{what}: the next run is whole", told[0] == 0, told)
    tally.same(f"{what}: each message is on both sides once", scene.counts(box), (wanted, wanted))
    tally.same(f"{what}: and the run after has nothing to do", scene.run("c"), [0, "c:INBOX", "ran"])


FAR = [f"far {number}" for number in range(1, 7)]
