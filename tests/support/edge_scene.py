"""Scenes whose server is in this process and can misbehave, and what they need of the system."""
import contextlib
import os
import subprocess
import tempfile

from tests.support.maildir_side import NAME
from tests.support.scene import MARK, NOBODY, Scene, near_text
from tests.support.scripted_server import ScriptedServer

THREE = b"Subject: three\r\n\r\nThe third.\r\n"
FOUR = b"Subject: four\r\n\r\nThe fourth.\r\n"
# What is told of a mailbox that was put back to an earlier time: its UIDNEXT, and a UID that is known.
EARLIER = ("the server of IMAPStore far gives UIDs from %d on, and UID %d was given before: "
           'the manual page says what to do under "How to recover"')
# How many seconds a run may take that must not wait for anything.
QUICK = 10
PAGE = 4096


class Edge(Scene):
    """A scene whose server is in this process."""

    def serve(self, messages):
        return ScriptedServer(messages)

    def inbox(self):
        """The INBOX of the server."""
        return self.server.boxes["INBOX"]

    def far_messages(self, box="INBOX"):
        """Flags and bytes of each far message by UID, without the line of a mark."""
        return {uid: ("".join(sorted(letters)), MARK.sub(b"", data)) for uid, (letters, data) in self.server.boxes[box].messages.items()}

    def near_messages(self, box="inbox"):
        """The same of the near files, by UID, or by name where there is none. What is no file is left out."""
        found = {}
        for part in ("new", "cur"):
            folder = self.path(f"{box}/{part}")
            for name in os.listdir(folder) if os.path.isdir(folder) else []:
                parts = NAME.match(name)
                if parts and os.path.isfile(os.path.join(folder, name)):
                    with open(os.path.join(folder, name), "rb") as file:
                        found[int(parts["uid"] or 0) or parts["base"]] = (parts["letters"] or "", MARK.sub(b"", file.read()))
        return found

    def sides(self):
        """The messages of both sides, the near ones first."""
        return [self.near_messages(), self.far_messages()]

    def own(self, box="inbox"):
        """The bytes of each file that belongs to a near mailbox, beside its messages."""
        found = {}
        for name in self.texts(box):
            with open(self.path(f"{box}/{name}"), "rb") as file:
                found[name] = file.read()
        return found

    def set_highest(self, uid):
        """Sets aside the near UIDs up to this one."""
        validity = self.near().text(".uidvalidity").split("\n")[0]
        self.write("inbox/.uidvalidity", f"{validity}\n{uid}\n".encode())

    def run_closed(self, closing, *words):
        """Status and output of a run whose standard streams the shell closes so."""
        known = self.words(words, True)
        known["args"] = ["sh", "-c", f'exec "$0" "$@" {closing}', *known["args"]]
        done = subprocess.run(**known, stdout=subprocess.PIPE, stderr=subprocess.PIPE, timeout=120, check=False)
        return [done.returncode, *done.stdout.decode().splitlines(), *done.stderr.decode().splitlines()]


def near(*messages):
    """What the near side has of these far messages, by the UIDs from 1 on."""
    return {uid: ("", near_text(data)) for uid, data in enumerate(messages, 1)}


def far(*messages):
    """What the far side has of these, by the UIDs from 1 on."""
    return {uid: ("", data) for uid, data in enumerate(messages, 1)}


def stopped(*lines):
    """What a run tells that was stopped, with the lines behind it."""
    return [1, "c:INBOX", "mbsync: c:INBOX: stopped", *("  " + line for line in lines)]


def nobody_can_run():
    """Whether the program can be run by someone who cannot read every file."""
    if os.geteuid() != 0:
        return True
    try:
        return subprocess.run([Scene.program, "-h"], user=NOBODY, stdout=subprocess.DEVNULL, check=False).returncode == 0
    except PermissionError:
        return False


@contextlib.contextmanager
def disk(path, pages, *options):
    """A file system of so many pages stands in this folder, in memory."""
    os.makedirs(path, exist_ok=True)
    subprocess.run(["mount", "-t", "tmpfs", "-o", ",".join([f"size={pages * PAGE}", *options]), "tmpfs", path], check=True)
    try:
        yield
    finally:
        subprocess.run(["umount", path], check=True)


def can_mount():
    """Whether this is root, and the system lets it mount."""
    if os.geteuid() != 0:
        return False
    with tempfile.TemporaryDirectory() as folder:
        try:
            with disk(folder, 1):
                return True
        except (OSError, subprocess.CalledProcessError):
            return False
