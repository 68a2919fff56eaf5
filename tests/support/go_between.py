"""Stands between a client of IMAP4rev1 (isync) and trial-imapd, which takes a profile of IMAP4rev2 alone. What isync asks in words
that the profile lacks is asked in its words; all else passes as it is, so that a client of the profile can be measured through it too."""
import re
import socket
import threading

from tests.support.listening import Listening

ASKED = [
    (re.compile(rb"^(\w+ UID FETCH \S+ )\(UID FLAGS\)\r\n$"), rb"\1(UID FLAGS RFC822.SIZE)\r\n"),
    (re.compile(rb"^(\w+ UID FETCH \S+ )\(BODY\.PEEK\[\]\)\r\n$"), rb"\1(UID BODY.PEEK[])\r\n"),
    (re.compile(rb"^(\w+ APPEND \S+ )(\{\d+\+?\}\r\n)$"), rb"\1() \2"),
    (re.compile(rb"^(\w+) CLOSE\r\n$"), rb"\1 UID EXPUNGE 1:*\r\n"),
    (re.compile(rb"^(\w+) CHECK\r\n$"), rb"\1 NOOP\r\n"),
]
TOLD = (b"* CAPABILITY IMAP4rev2\r\n", b"* CAPABILITY IMAP4rev1 IMAP4rev2 UIDPLUS\r\n")
LITERAL = re.compile(rb"\{(\d+)\+?\}\r\n$")


class GoBetween(Listening):
    """Takes each connection on to the server's port."""

    def __init__(self, port):
        self.server_port = port
        super().__init__()

    def take(self, stream):
        server = socket.create_connection(("127.0.0.1", self.server_port))
        server.setsockopt(socket.IPPROTO_TCP, socket.TCP_NODELAY, 1)
        threading.Thread(target=carry, args=(pass_commands, stream, server), daemon=True).start()
        threading.Thread(target=carry, args=(pass_replies, server, stream), daemon=True).start()


def carry(work, source, target):
    """Passes what comes, and then says that no more comes."""
    try:
        work(source, target)
        target.shutdown(socket.SHUT_WR)
    except OSError:
        # An end is gone, which the other one sees by itself.
        target.close()


def pass_commands(client, server):
    with client.makefile("rb") as lines:
        for line in lines:
            for wanted, words in ASKED:
                line = wanted.sub(words, line)
            server.sendall(line)
            if literal := LITERAL.search(line):
                server.sendall(lines.read(int(literal[1])))


def pass_replies(server, client):
    while told := server.recv(1 << 16):
        client.sendall(told.replace(*TOLD) if told.startswith(TOLD[0]) else told)
