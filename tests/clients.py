#!/usr/bin/env python3
"""Runs real clients against trial-imapd, and ends at the first wrong answer.

curl sends each command by -X and appends a file by -T; without curl this part is skipped, which is printed. Then 10,000 random and damaged
lines are sent by sockets, twenty a connection: the server has to stay, to take at most 64 MB, and to serve the next connection. Another
SEED gives other lines."""
import os
import pathlib
import random
import shutil
import socket
import subprocess
import sys
import tempfile

sys.path.insert(0, str(pathlib.Path(__file__).resolve().parents[1]))
from tests.support.places import parser_of
from tests.support.tally import Tally, Wrong
from tests.support.trial_imapd import Server, build, world

MESSAGES = [b"Subject: one\r\n\r\nfirst\r\n", b"Subject: two\r\n\r\nsecond\r\n"]
MOST_MB = 64
LINES = 10000
LINES_A_CONNECTION = 20

# A mailbox to select or none, a command, and what has to come back beside `OK`.
COMMANDS = [
    ("", "CAPABILITY", "* CAPABILITY IMAP4rev2"),
    ("", "NOOP", ""),
    ("", "ENABLE IMAP4rev2", "* ENABLED IMAP4rev2"),
    ("", 'LIST "" "*"', '* LIST () "/" "INBOX"'),
    ("", "CREATE Work", ""),
    ("", "SELECT Work", "* 0 EXISTS"),
    ("INBOX", "UID FETCH 1:* (UID FLAGS RFC822.SIZE)", "* 2 FETCH (UID 2 FLAGS () RFC822.SIZE 24)"),
    ("INBOX", "UID FETCH 2 (UID BODY.PEEK[])", "* 2 FETCH (UID 2 BODY[] {24}"),
    ("INBOX", "UID FETCH 2 (UID BODY.PEEK[]<0.22>)", "* 2 FETCH (UID 2 BODY[]<0> {22}"),
    ("INBOX", "UID STORE 2 +FLAGS.SILENT (\\Deleted)", ""),
    ("INBOX", "UID FETCH 2 (UID FLAGS RFC822.SIZE)", "* 2 FETCH (UID 2 FLAGS (\\Deleted) RFC822.SIZE 24)"),
    ("INBOX", "UID EXPUNGE 1:*", "* 2 EXPUNGE"),
    ("INBOX", "UID FETCH 1:* (UID FLAGS RFC822.SIZE)", "* 1 FETCH (UID 1 FLAGS () RFC822.SIZE 23)"),
    ("", "LOGOUT", "* BYE bye"),
]

GOOD = [
    b"CAPABILITY", b"NOOP", b"LOGOUT", b"LOGIN u p", b'LOGIN "u" "p"', b"LOGIN {1+}\r\nu {1+}\r\np", b"ENABLE IMAP4rev2",
    b'LIST "" "*"', b"CREATE a/b", b"SELECT INBOX", b"APPEND INBOX (\\Seen) {5+}\r\nhello", b"APPEND INBOX () {3}\r\nabc",
    b"UID FETCH 1:* (UID FLAGS RFC822.SIZE)", b"UID FETCH 1 (UID BODY.PEEK[])", b"UID STORE 1 -FLAGS.SILENT (\\Seen)",
    b"UID EXPUNGE 1:*",
]


def curl(server, mailbox, *words):
    """The status of curl, and what it prints of its commands and of the replies."""
    url = f"imap://127.0.0.1:{server.port}/{mailbox}"
    done = subprocess.run(["curl", "--silent", "--verbose", "--user", "u:p", url, *words], capture_output=True, timeout=60, check=False)
    told = done.stderr.decode("latin-1").replace("\r", "") + done.stdout.decode("latin-1").replace("\r", "")
    return done.returncode, told


def check_curl(tally, server, folder):
    for mailbox, command, reply in COMMANDS:
        status, told = curl(server, mailbox, "-X", command)
        answered = any(line.startswith("< A") and " OK" in line for line in told.split("\n"))
        if status not in (0, 56) or not answered or reply not in told:
            raise Wrong(f"curl -X '{command}': status {status}\n{told}")
        tally.passes()
    name = os.path.join(folder, "message")
    with open(name, "wb") as file:
        file.write(b"Subject: three\r\n\r\nthird\r\n")
    status, told = curl(server, "INBOX", "-T", name)
    if status != 0 or "[APPENDUID 1 3] done" not in told:
        raise Wrong(f"curl -T: status {status}\n{told}")
    tally.passes()
    print(f"curl: {len(COMMANDS)} commands by -X and an APPEND by -T are answered")


def damaged(rand):
    """A line that is random or damaged."""
    if rand.random() < 0.2:
        return rand.randbytes(rand.randrange(200))
    line = bytearray(b"A%d %s" % (rand.randrange(100), rand.choice(GOOD)))
    for _ in range(rand.randrange(4)):
        place = rand.randrange(len(line) + 1)
        kind = rand.randrange(4)
        if kind == 0:
            line[place:place + 1] = bytes([rand.randrange(256)])
        elif kind == 1:
            del line[place:place + rand.randrange(5)]
        elif kind == 2:
            line[place:place] = line[place:place + 9] * rand.randrange(1, 4)
        else:
            line[place:place] = rand.choice([b"\r", b"\n", b"\r\n", b"{", b"{99999999}", b"{4097+}", b"\0", b"(", b'"', b"*"])
    return bytes(line)


def send_lines(server, lines):
    """What the server sends on a connection of these lines."""
    stream = socket.create_connection(("127.0.0.1", server.port), timeout=60)
    told = b""
    try:
        stream.sendall(b"".join(line + b"\r\n" for line in lines))
        stream.shutdown(socket.SHUT_WR)
        while replies := stream.recv(1 << 16):
            told += replies
    except (BrokenPipeError, ConnectionResetError):
        # The server may end the connection before all was sent.
        pass
    finally:
        stream.close()
    return told


def check_random(tally, server, seed):
    rand = random.Random(seed)
    counts = {b" OK ": 0, b" NO ": 0, b" BAD ": 0, b"* BYE too long": 0}
    for _ in range(LINES // LINES_A_CONNECTION):
        logged_in = [b"L LOGIN u p", b"S SELECT INBOX"] if rand.random() < 0.8 else []
        told = send_lines(server, logged_in + [damaged(rand) for _ in range(LINES_A_CONNECTION)])
        for word in counts:
            counts[word] += told.count(word)
    if server.process.poll() is not None:
        raise Wrong(f"seed {seed}: trial-imapd ended: {server.process.stderr.read().decode()}")
    if server.peak() > MOST_MB:
        raise Wrong(f"seed {seed}: {server.peak():.0f} MB")
    connection = server.connect()
    connection.ask(b"LOGIN u p")
    connection.ask(b"NOOP")
    connection.logout()
    # The server is still there, it takes little memory, and it serves the next connection.
    tally.passes(3)
    answers = ", ".join(f"{count} times {word.decode().strip()}" for word, count in counts.items())
    print(f"{LINES} random and damaged lines are answered {answers}; the next connection is served, greatest memory {server.peak():.1f} MB")


def main():
    words = parser_of(__doc__)
    words.add_argument("seed", nargs="?", type=int, default=1)
    words = words.parse_args()
    build()
    tally = Tally()
    with tempfile.TemporaryDirectory() as folder, tally.until_wrong():
        file = os.path.join(folder, "clients.world")
        with open(file, "wb") as text:
            text.write(world(MESSAGES))
        server = Server(file, 65535)
        try:
            server.connect().logout()
            if shutil.which("curl") is None:
                tally.skip("the part of curl", "it is not installed")
            else:
                check_curl(tally, server, folder)
            check_random(tally, server, words.seed)
        finally:
            server.stop()
    tally.end()


if __name__ == "__main__":
    main()
