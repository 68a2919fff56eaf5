"""Scenes over the built mbsync: a home folder with a configuration, a server, and the program between."""
import os
import re
import shlex
import shutil
import subprocess
import tempfile

from tests.support import trial_imapd
from tests.support.configuration import imap_store, maildir_store
from tests.support.imap_side import ImapSide
from tests.support.maildir_side import MaildirSide

ONE = b"Subject: one\r\n\r\nThe first.\r\n"
TWO = b"Subject: two\r\n\r\nThe second.\r\n"
NOBODY = 65534
MARK = re.compile(rb"\AX-TUID: [A-Za-z0-9_-]{12}\r?\n")

HOME_STORE = maildir_store("~/mail", "~/inbox")
CHANNELS = """\
Channel c
Far :far:
Near :near:
Create Near

Channel all
Far :far:
Near :near:
Patterns %s
Create %s
"""


def configuration(port, patterns, create="None", password="p"):
    """A configuration with one mailbox in channel `c`, and those of these patterns in `all`."""
    return imap_store(port, password=password) + HOME_STORE + CHANNELS % (patterns, create)


class Scene:
    """A home folder with a configuration, a server with these messages, and mbsync between them."""

    program = None
    user = None

    def __init__(self, *messages, patterns="* INBOX", create="None", password="p"):
        self.home = tempfile.mkdtemp(prefix="mbsync-")
        self.server = self.serve(messages)
        self.configure(configuration(self.server.port, patterns, create, password))

    def __enter__(self):
        return self

    def __exit__(self, *_):
        self.server.stop()
        shutil.rmtree(self.home)

    def serve(self, messages):
        """A server whose INBOX has these messages."""
        world = self.path("world")
        with open(world, "wb") as file:
            file.write(trial_imapd.world(list(messages)))
        server = trial_imapd.Server(world, 65535)
        server.connect().logout()
        return server

    def path(self, name):
        return os.path.join(self.home, name)

    def configure(self, text):
        with open(self.path(".mbsyncrc"), "w", encoding="ascii") as file:
            file.write(text)

    def words(self, words, home):
        environment = {name: text for name, text in os.environ.items() if name != "HOME"}
        if home:
            environment["HOME"] = self.home
        known = {"args": [self.program, *words], "env": environment, "stdin": subprocess.DEVNULL, "cwd": self.home}
        if self.user is not None:
            known.update(user=self.user, group=self.user, extra_groups=[])
        return known

    def leave_root(self):
        """Makes the further runs those of a user who cannot read every file."""
        if os.geteuid() == 0:
            self.user = NOBODY
            for folder, _, names in os.walk(self.home):
                for path in (folder, *(os.path.join(folder, name) for name in names)):
                    os.chown(path, NOBODY, NOBODY)

    def run(self, *words, home=True, out=subprocess.PIPE, most=120):
        """The status of a run, and what it prints: standard output, and then standard error. A run that has not ended after so many
        seconds is killed, and its status is `no end`."""
        process = subprocess.Popen(**self.words(words, home), stdout=out, stderr=subprocess.PIPE)
        try:
            (told, faults), status = process.communicate(timeout=most), process.returncode
        except subprocess.TimeoutExpired:
            process.kill()
            (told, faults), status = process.communicate(), "no end"
        return [status, *(told or b"").decode("latin-1").splitlines(), *faults.decode("latin-1").splitlines()]

    def run_on_terminal(self, *words, out):
        """What a run writes to a terminal that is its standard error. Its standard output goes to this file."""
        line = f"{shlex.join([self.program, *words])} > {shlex.quote(out)}"
        known = self.words(words, True)
        known["args"] = ["script", "-q", "-e", "-f", "-c", line, self.path("typescript")]
        done = subprocess.run(**known, stdout=subprocess.PIPE, timeout=120, check=False)
        return [done.returncode, done.stdout]

    def start(self, *words):
        return subprocess.Popen(**self.words(words, True), stdout=subprocess.PIPE, stderr=subprocess.PIPE)

    def far(self):
        return ImapSide(self.server.port)

    def far_messages(self):
        """Flags and bytes of each far message by UID, without the line of a mark."""
        with self.far() as far:
            return {uid: ("".join(sorted(flags)), MARK.sub(b"", data)) for uid, flags, data in far.messages()}

    def make_far(self, *names):
        with self.far() as far:
            for name in names:
                far.ask(b"CREATE " + name.encode())

    def near(self, box="inbox"):
        return MaildirSide(self.path(box))

    def near_messages(self, box="inbox"):
        """The same of the near mailbox in this folder. Waiting messages have UID 0."""
        return {uid or 0: ("".join(sorted(flags)), MARK.sub(b"", data)) for uid, flags, data in self.near(box).messages()}

    def write(self, name, data):
        os.makedirs(os.path.dirname(self.path(name)), exist_ok=True)
        with open(self.path(name), "wb") as file:
            file.write(data)

    def texts(self, box="inbox"):
        """The files that belong to a near mailbox, beside its messages."""
        return sorted(name for name in os.listdir(self.path(box)) if name not in ("cur", "new", "tmp"))


def near_text(message):
    return message.replace(b"\r\n", b"\n")


def mode_of(path):
    return oct(os.stat(path).st_mode & 0o777)
