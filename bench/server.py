#!/usr/bin/env python3
"""Prints how fast trial-imapd serves a mailbox over loopback.

The mailbox has 10,000 and 100,000 messages of 3 KB. They are listed, fetched by one command, and 1,000 of them one by one; then as many
are appended to an empty mailbox, each once its literal is asked for; and a literal of 16 MB and a tenth of it is sent in pieces of 4096
bytes. With seconds and MB a second it prints how many times as long ten times the work takes, and the greatest memory of the server. Each
connection has to be answered to its end. Run it with nothing beside it."""
import os
import pathlib
import sys
import tempfile
import time

sys.path.insert(0, str(pathlib.Path(__file__).resolve().parents[1]))
from tests.support.messages import of_3_kb
from tests.support.places import parser_of
from tests.support.tally import Tally
from tests.support.trial_imapd import Server, build, world

SIZES = (10000, 100000)
SINGLE = 1000
LITERALS = (1677721, 16777216)
MB = 1000000


def timed(work):
    """The seconds that this takes, and what it gives."""
    start = time.monotonic()
    value = work()
    return time.monotonic() - start, value


def begin(server):
    connection = server.connect()
    connection.ask(b"LOGIN u p")
    connection.ask(b"SELECT INBOX", b"OK [READ-WRITE] done")
    return connection


def end(server, connection):
    peak = server.peak()
    connection.logout()
    status = server.ended()
    if status != 0:
        sys.exit(f"status {status}")
    return peak


def file_of(folder, messages):
    name = os.path.join(folder, "bench.world")
    with open(name, "wb") as file:
        file.write(world(messages))
    return name


def fetching(folder, count):
    """Rows of what reads a mailbox: a name, seconds, bytes."""
    file = file_of(folder, [of_3_kb(n) for n in range(1, count + 1)])
    server = Server(file, 1)
    connection = begin(server)
    rows = []
    for name, command in ((b"list", b"(UID FLAGS RFC822.SIZE)"), (b"fetch", b"(UID BODY.PEEK[])")):
        seconds, size = timed(lambda: connection.ask(b"UID FETCH 1:* " + command))
        rows.append((name.decode(), seconds, size))
    uids = [1 + n * (count // SINGLE) for n in range(SINGLE)]
    seconds, size = timed(lambda: sum(connection.ask(b"UID FETCH %d (UID BODY.PEEK[])" % uid) for uid in uids))
    rows.append((f"{SINGLE} single fetches", seconds, size))
    return rows, end(server, connection)


def appending(folder, count):
    server = Server(file_of(folder, []), 1)
    connection = begin(server)
    messages = [of_3_kb(n) for n in range(1, count + 1)]

    def append_all():
        for uid, text in enumerate(messages, 1):
            connection.append(text, uid)

    seconds, _ = timed(append_all)
    return [("append", seconds, sum(len(text) for text in messages))], end(server, connection)


def one_literal(folder, size):
    server = Server(file_of(folder, []), 1)
    connection = begin(server)
    seconds, _ = timed(lambda: connection.append(b"x" * size, 1, 4096))
    return [("a literal in pieces of 4096 bytes", seconds, size)], end(server, connection)


def show(tally, measure, sizes, unit):
    with tempfile.TemporaryDirectory() as folder:
        before = None
        for size in sizes:
            rows, peak = measure(folder, size)
            for place, (name, seconds, count) in enumerate(rows):
                ratio = "" if before is None else ", %.1f times as long" % (seconds / before[place][1])
                print("%d %s: %s: %.3f s, %.0f MB/s%s" % (size, unit, name, seconds, count / MB / seconds, ratio), flush=True)
            print("%d %s: greatest memory %.0f MB" % (size, unit, peak), flush=True)
            before = rows
            tally.passes()


def main():
    parser_of(__doc__).parse_args()
    build()
    tally = Tally()
    show(tally, fetching, SIZES, "messages")
    show(tally, appending, SIZES, "messages")
    show(tally, one_literal, LITERALS, "bytes")
    tally.end()


if __name__ == "__main__":
    main()
