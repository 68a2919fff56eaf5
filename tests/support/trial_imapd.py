"""Starts trial-imapd on a world of its own, for the scripts that talk to it."""
import os
import socket
import subprocess
import sys
import time

from oracle.mail import escaped
from tests.support import places
from tests.support.measured import peak_so_far

PROGRAM = places.built("trial_imapd")


def build():
    """Proves and builds the program, if it is missing or older than its sources."""
    places.build("trial_imapd", "-h")


def take_server(words):
    """Has the words of a script name the trial-imapd that it runs."""
    words.add_argument("--server", metavar="PROGRAM", help="the built trial-imapd, if it is left out")


def use_server(program):
    """Has servers run this program, or, where none is named, the built one."""
    global PROGRAM
    if program:
        PROGRAM = program
    else:
        build()


def program_over(text):
    """The mbsync that a script tries, over the trial-imapd that it runs, as its words name them. The help begins with the text of the script."""
    words = places.parser_of(text)
    words.add_argument("program", nargs="?", default=places.MBSYNC, help="the built mbsync, if it is left out")
    take_server(words)
    words = words.parse_args()
    places.must_run(words.program)
    use_server(words.server)
    return words.program


def programs_beside(tally, words):
    """The words of a script that measures mbsync beside isync over the trial-imapd that it runs, as this parser reads them with its own:
    `program` and `isync`. Where isync is not installed, that is told and the script ends."""
    words.add_argument("--program", default=places.MBSYNC, help="the built mbsync, if it is left out")
    words.add_argument("--isync", default="/usr/bin/mbsync", help="/usr/bin/mbsync, if it is left out")
    take_server(words)
    words = words.parse_args()
    places.must_run(words.program)
    use_server(words.server)
    if not os.access(words.isync, os.X_OK):
        tally.skip("isync", f"it is not installed at {words.isync}")
        tally.end()
    return words


def world(messages, keywords=()):
    """The text of a world whose far mailbox has these messages, with the UIDs from 1 on, and with these lines of keywords."""
    lines = [b"sync Full", b"expunge None", *(b"keyword " + line.encode() for line in keywords), b"far 1 %d" % (len(messages) + 1)]
    for uid, message in enumerate(messages, 1):
        lines.append(b'f %d - "%s"' % (uid, escaped(message).encode()))
    return b"\n".join(lines + [b"near 1 1", b"state 0 0 0 0 0", b"end", b""])


class Server:
    """The program, which listens at a free port of this machine."""

    def __init__(self, file, count):
        with socket.socket() as free:
            free.bind(("127.0.0.1", 0))
            self.port = free.getsockname()[1]
        self.process = subprocess.Popen([PROGRAM, f"127.0.0.1:{self.port}", file, str(count)], stderr=subprocess.PIPE)

    def connect(self):
        """A connection, once the server listens."""
        for _ in range(6000):
            if self.process.poll() is not None:
                sys.exit(f"trial-imapd ended: {self.process.stderr.read().decode()}")
            try:
                return Connection(socket.create_connection(("127.0.0.1", self.port), timeout=600))
            except ConnectionRefusedError:
                time.sleep(0.05)
        sys.exit("trial-imapd does not listen")

    def ended(self):
        """Its status, once it has ended."""
        status = self.process.wait()
        self.process.stderr.close()
        return status

    def peak(self):
        """Its greatest memory so far in MB."""
        return peak_so_far(self.process.pid, 0)

    def stop(self):
        self.process.kill()
        self.process.wait()
        self.process.stderr.close()


class Connection:
    """One end of a connection, which sends commands and waits for their replies."""

    def __init__(self, stream):
        self.stream = stream
        self.stream.setsockopt(socket.IPPROTO_TCP, socket.TCP_NODELAY, 1)
        self.tag = 0
        self.until(b"* OK ready\r\n")

    def until(self, end):
        """What comes, up to these bytes, which have to come last; only the last bytes are kept and how many came."""
        last, count = b"", 0
        while not last.endswith(end):
            bytes_ = self.stream.recv(1 << 20)
            if not bytes_:
                sys.exit(f"the connection ended before {end}: {last}")
            count += len(bytes_)
            last = (last + bytes_)[-200:]
        return last, count

    def ask(self, command, answer=b"OK done"):
        """Sends a command, and waits for its answer; gives how many bytes came."""
        self.tag += 1
        self.stream.sendall(b"A%d %s\r\n" % (self.tag, command))
        return self.until(b"A%d %s\r\n" % (self.tag, answer))[1]

    def append(self, message, uid, piece=None):
        """Appends a message, once its literal is asked for, in pieces of this size."""
        self.tag += 1
        self.stream.sendall(b"A%d APPEND INBOX () {%d}\r\n" % (self.tag, len(message)))
        self.until(b"+ go\r\n")
        for start in range(0, len(message), piece or len(message)):
            self.stream.sendall(message[start:start + (piece or len(message))])
        self.stream.sendall(b"\r\n")
        self.until(b"A%d OK [APPENDUID 1 %d] done\r\n" % (self.tag, uid))

    def logout(self):
        self.tag += 1
        self.stream.sendall(b"A%d LOGOUT\r\n" % self.tag)
        self.until(b"* BYE bye\r\nA%d OK done\r\n" % self.tag)
        self.stream.close()
