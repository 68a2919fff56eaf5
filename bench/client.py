#!/usr/bin/env python3
"""Prints how long calls of the client take over a link to a server in memory, which hands out at most 4096 bytes at once.

A mailbox with 10,000 and one with 100,000 messages is listed, the mark of its last message is sought, and a message of 1.6 MB and one of
16 MB is fetched. The server answers in the same process, so that its time and its memory, with the mailbox itself, are counted in. Then a
server in this script lists a mailbox of 1,000,000 messages and sends a message of 16 MB, over TCP: what the client's process takes beside
a mailbox and a message of one byte has to be at most 60 bytes a message and 1.2 times the message. Seconds are the least of three runs,
and of one call each: the connection, the login and the selection come before. Beside them are the processor seconds of the whole
program, which others on the machine disturb less; the mailbox is made in them, too. Ten times the messages or bytes take about ten times as
long. tests_of_runs makes the calls, by lines of a script of `client` (crates/test_client)."""
import pathlib
import resource
import sys
import tempfile

sys.path.insert(0, str(pathlib.Path(__file__).resolve().parents[1]))
from bench.memory import peak
from tests.support.places import build, built, parser_of
from tests.support.played import play, text_of
from tests.support.scripted_server import BODY, LISTING, ScriptedServer, body_told
from tests.support.tally import Tally

NAME = "tests_of_runs"
TASKS = [("list", "messages", (10000, 100000)), ("find", "messages", (10000, 100000)), ("fetch", "bytes", (1677721, 16777216))]


def script_of(task, size):
    """The lines of a task, of which the last is the call."""
    made = f"body {size}" if task == "fetch" else f"messages {size}"
    call = {"list": "count", "find": f"find_mark {size:012d} 1", "fetch": "fetch 1"}[task]
    return ["case a call", "over memory", "mailbox 1 4294967295 INBOX", made, "open", "login u p", "select INBOX", "clock", call]


def is_right(task, size, told):
    return str(size) in told[0] if task != "fetch" else f"({size} bytes)" in told[0]


def run(tally, task, size):
    """The seconds of one call, and the processor seconds of the program."""
    before = processor()
    answers, times = play(NAME, "client", script_of(task, size))
    if not is_right(task, size, answers[-1]):
        tally.fails(f"{task} {size}: {answers[-1]}")
        tally.end()
    tally.passes()
    return times[-1], processor() - before


def processor():
    """The processor seconds of all programs that have ended."""
    used = resource.getrusage(resource.RUSAGE_CHILDREN)
    return used.ru_utime + used.ru_stime


def memory_of(task, size):
    with tempfile.TemporaryFile() as source:
        source.write(text_of("client", script_of(task, size)))
        source.seek(0)
        return peak([built(NAME)], source)


def measure(tally, task, unit, size):
    runs = [run(tally, task, size) for _ in range(3)]
    seconds, cpu, memory = min(each[0] for each in runs), min(each[1] for each in runs), memory_of(task, size)
    print("%-5s %8d %-8s  %8.4f s  %8.4f s of the processor  %6.1f MB at most  %6.3f us and %5.1f bytes for each"
          % (task, size, unit, seconds, cpu, memory / 1e6, seconds / size * 1e6, memory / size), flush=True)
    return seconds, cpu, memory


def says(size):
    """A script of a server: a mailbox of so many messages, each of which has so many bytes."""
    def answer(talk, command):
        if command.asks(LISTING):
            for first in range(1, size + 1, 10000):
                rows = range(first, min(first + 10000, size + 1))
                talk.stream.sendall(b"".join(b"* %d FETCH (UID %d FLAGS (\\Seen) RFC822.SIZE 3000)\r\n" % (n, n) for n in rows))
        elif command.asks(BODY):
            talk.stream.sendall(body_told(1, 1, b"BODY[]", b"x" * size))
        else:
            return False
        talk.done(command)
        return True
    return answer


def heard_memory(call, size):
    """The most memory of the client's process that makes this call."""
    server = ScriptedServer([b"x"])
    server.script = says(size)
    with tempfile.TemporaryFile() as source:
        source.write(text_of("client", ["case a call", f"over tcp 127.0.0.1:{server.port}", "open", "login u p", "select INBOX", call]))
        source.seek(0)
        memory = peak([built(NAME)], source)
    server.stop()
    return memory


def main():
    parser_of(__doc__).parse_args()
    build(NAME)
    tally = Tally()
    for call, size, limit in (("count", 1000000, 60), ("fetch 1", 16777216, 1.2)):
        memory = heard_memory(call, size) - heard_memory(call, 1)
        print("%-7s %8d over TCP: %6.1f MB more, %5.2f bytes for each, at most %s are asked"
              % (call, size, memory / 1e6, memory / size, limit), flush=True)
        tally.check(f"{call} takes at most {limit} bytes for each", memory <= limit * size)
    for task, unit, sizes in TASKS:
        few, many = (measure(tally, task, unit, size) for size in sizes)
        print("%-5s ten times as many take %.1f times as long, %.1f times the processor and %.1f times the memory"
              % (task, *(more / less for more, less in zip(many, few))), flush=True)
    tally.end()


if __name__ == "__main__":
    main()
