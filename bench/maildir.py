#!/usr/bin/env python3
"""Prints how long a near mailbox takes to be opened and listed, and how many system calls that takes.

The mailboxes have 10,000 and 100,000 small messages, in folders that are made for the run: a third of the messages are in `new`. Each
message is read once, so ten times the messages take about ten times as long. Seconds are the least of three runs; system calls are
counted by strace if it is there. A listing that asks no message whether it is fit, as that of a run with nothing to do, has to make at
most 20 system calls and one for each 50 names. Before that a folder is made with a name outside UTF-8, at which the listing has to stop;
one with a fifo under a name without a UID, which is ignored; one with a fifo under the name of a message, which is listed, and stops the
listing where it is read; and one without `tmp`, which is absent. Then 1,000 messages are appended, and the calls that sync are counted:
two a message, for the copy and for the meta file, and three at the end, for the names in `cur`, in `new` and in the folder. At the end
10,000 copies are sought by their marks, one after another, as a pull that was stopped seeks them: each file has to be opened once.
tests_of_stores does it, by lines of a script of `near_mailbox` (crates/test_near_mailbox)."""
import os
import pathlib
import shutil
import subprocess
import sys
import tempfile
import time

sys.path.insert(0, str(pathlib.Path(__file__).resolve().parents[1]))
from bench.memory import peak
from tests.support.measured import STRACE_ROW
from tests.support.places import build, built, parser_of
from tests.support.played import play, text_of
from tests.support.tally import Tally

NAME = "tests_of_stores"
TALLY = Tally()
SIZES = (10000, 100000)


def make(folder, count, first_line=b"Subject: %d\n"):
    for part in (b"cur", b"new", b"tmp"):
        os.makedirs(os.path.join(folder, part))
    for n in range(1, count + 1):
        part, letters = (b"new", b"") if n % 3 == 0 else (b"cur", b":2,S" if n % 3 == 1 else b":2,")
        name = b"1700000000.M%dP7.host,U=%d%s" % (n, n, letters)
        with open(os.path.join(folder, part, name), "wb") as file:
            file.write(first_line % n + b"\ntext\n")
    with open(os.path.join(folder, b".uidvalidity"), "wb") as file:
        file.write(b"1\n%d\n" % count)


def script_of(folder, *asked):
    """A script that opens the mailbox in a folder, and asks this of it."""
    return ["case a folder", f"folder at {os.fsdecode(folder)}", "open 9", *asked]


def answer(folder, *asked):
    """What is answered where the mailbox is opened, or to the last line where it opens."""
    answers, _ = play(NAME, "near_mailbox", script_of(folder, *asked))
    return answers[2] + [it for told in answers[3:] for it in told]


def must_be(is_so, otherwise):
    """Counts a check; if it fails the script ends."""
    if is_so:
        TALLY.passes()
    else:
        TALLY.fails(otherwise)
        TALLY.end()


def expect(folder, wanted, *asked):
    found = answer(folder, *asked)
    must_be(found[-1] == wanted, f"{os.fsdecode(folder)}: {found} instead of {wanted}")


def check_bad_folders(top):
    strange = os.path.join(top, b"strange")
    make(strange, 2)
    expect(strange, "2", "count")
    with open(os.path.join(strange, b"cur", b"caf\xe9:2,"), "wb"):
        pass
    expect(strange, "stopped")
    os.remove(os.path.join(strange, b"cur", b"caf\xe9:2,"))
    os.mkfifo(os.path.join(strange, b"cur", b"fifo:2,"))
    expect(strange, "2", "count")
    os.rename(os.path.join(strange, b"cur", b"fifo:2,"), os.path.join(strange, b"cur", b"fifo,U=3:2,"))
    with open(os.path.join(strange, b".uidvalidity"), "wb") as file:
        file.write(b"1\n3\n")
    expect(strange, "3", "count above 3")
    expect(strange, "stopped", "count")
    os.rmdir(os.path.join(strange, b"tmp"))
    expect(strange, "absent")
    print("a name outside UTF-8 stops the listing, a fifo is left alone or stops it, and a folder without tmp is absent")


def run(folder, count):
    """The seconds of one run."""
    start = time.monotonic()
    told = answer(folder, "count")
    seconds = time.monotonic() - start
    must_be(told[-1] == str(count), f"{count} messages: {told}")
    return seconds


def traced(folder, asked, *flags):
    """What strace prints of such a run, or none if it is missing or may not be used."""
    if shutil.which("strace") is None:
        return None
    with tempfile.NamedTemporaryFile("r") as table:
        done = subprocess.run(["strace", "-f", *flags, "-o", table.name, built(NAME)],
                              input=text_of("near_mailbox", script_of(folder, asked)), capture_output=True, check=False)
        return table.read() if done.returncode == 0 else None


def counted(folder, asked):
    """How many system calls a run makes, by their names, or none where they cannot be counted."""
    table = traced(folder, asked, "-c")
    if table is None:
        return None
    return {name: int(number) for number, name in STRACE_ROW.findall(table) if name != "total"}


def calls(folder, count):
    """How many system calls a message a run makes, by their names, or none where they cannot be counted."""
    counts = counted(folder, "count")
    if counts is None:
        return None
    counts = {name: number / count for name, number in counts.items()}
    often = sorted((name for name in counts if counts[name] >= 0.1), key=lambda name: -counts[name])
    return "%.2f (%s)" % (sum(counts.values()), ", ".join("%s %.2f" % (name, counts[name]) for name in often))


def calls_at_rest(folder, count):
    """The system calls of a listing that asks no message, beside those of a listing of an empty folder's program start."""
    empty = os.path.join(os.path.dirname(folder), b"empty")
    if not os.path.isdir(empty):
        make(empty, 0)
    all_calls, start = counted(folder, f"count above {count}"), counted(empty, "count")
    if all_calls is None or start is None:
        return "not counted, strace cannot be used"
    more = sum(all_calls.values()) - sum(start.values())
    must_be(more <= 20 + count / 50, f"{count} messages: {more} system calls more than for none, with no message asked")
    return "%d, and %d more for the messages" % (sum(start.values()), more)


def measure(top, count):
    folder = os.path.join(top, b"%d" % count)
    make(folder, count)
    seconds = min(run(folder, count) for _ in range(3))
    with tempfile.TemporaryFile() as source:
        source.write(text_of("near_mailbox", script_of(folder, "count")))
        source.seek(0)
        memory = peak([built(NAME)], source)
    print("%7d messages  %7.3f s  %5.1f MB at most  %5.2f us and %4.0f bytes a message"
          % (count, seconds, memory / 1e6, seconds / count * 1e6, memory / count))
    print("        system calls a message: %s" % (calls(folder, count) or "not counted, strace cannot be used"))
    print("        system calls where no message is asked: %s" % calls_at_rest(folder, count))
    return seconds, memory


def measure_syncs(top, count):
    """Appends so many messages to an empty folder."""
    folder = os.path.join(top, b"appended")
    make(folder, 0)
    table = traced(folder, f"append {count} copies", "-e", "trace=fsync")
    if table is None:
        TALLY.skip("counting syncs", "strace cannot be used")
        return
    syncs, wanted = table.count("fsync("), 2 * count + 3
    print("%7d messages appended with %d syncs" % (count, syncs))
    must_be(answer(folder, "count")[-1] == str(count) and syncs == wanted, f"{count} messages appended with {syncs} syncs instead of {wanted}")


def measure_marks(top, count):
    """Seeks the marks of so many copies, one after another."""
    folder = os.path.join(top, b"marked")
    make(folder, count, b"X-TUID: %012d\n")
    start = time.monotonic()
    told = answer(folder, f"find {count} marks")
    seconds = time.monotonic() - start
    must_be(told[-1] == str(count), f"{count} marks: {told}")
    counts = counted(folder, f"find {count} marks")
    opened = "not counted, strace cannot be used" if counts is None else counts["openat"]
    print("%7d marks sought   %7.3f s  files opened: %s" % (count, seconds, opened))
    must_be(counts is None or opened <= count + 20, f"{opened} files opened for {count} copies")


def main():
    parser_of(__doc__).parse_args()
    build(NAME)
    with tempfile.TemporaryDirectory() as top:
        top = os.fsencode(top)
        check_bad_folders(top)
        few, many = (measure(top, count) for count in SIZES)
        measure_syncs(top, 1000)
        measure_marks(top, 10000)
    print("ten times the messages take %.1f times as long and %.1f times the memory"
          % (many[0] / few[0], many[1] / few[1]))
    TALLY.end()


if __name__ == "__main__":
    main()
