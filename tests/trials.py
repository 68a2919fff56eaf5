#!/usr/bin/env python3
"""Runs the built mbtrial on trials whose results were written down by hand, and compares what it prints and its exit status.

Each trial is run twice: with the far mailbox reached in memory, and with `--tcp` over a loopback connection. Lines of a text are written
here with ` / ` between them. Each trial whose result differs is printed."""
import os
import pathlib
import subprocess
import sys

sys.path.insert(0, str(pathlib.Path(__file__).resolve().parents[1]))
from tests.support.places import TOP, parser_of
from tests.support.tally import Tally

# The first two marks of the trial generator.
MARK = "AQAAAAAAAAAC"
SECOND_MARK = "AwAAAAAAAAAE"
PLAIN = "sync Full / expunge None"
TRIALS = []


def trial(name, text, printed, status=0, told=""):
    """A trial: what is printed, the exit status, and what comes on standard error."""
    TRIALS.append((name, text, printed, status, told))


def refused(name, text, line):
    trial(name, text, "", 2, f"mbtrial: world line {line}")


def first_pull():
    world = PLAIN + r' / far 1 3 / f 1 S "a\0d\0a" / f 2 - "b\0d\0a" / near 1 1 / state 0 0 0 0 0 / end'
    trial("first pull", world + " / tries 1",
          rf'settled ran 0 / new pull 1 -> 1 / new pull 2 -> 2 / far 1 3 / f 1 S "a\0d\0a" / f 2 - "b\0d\0a" / near 1 3 / n 1 S "X-TUID: {MARK}\0aa\0a" / n 2 - "X-TUID: {SECOND_MARK}\0ab\0a" / state 1 1 1 2 0 / e 1 1 S / e 2 2 - / end')
    trial("both mailboxes empty", PLAIN + " / far 1 1 / near 1 1 / state 0 0 0 0 0 / end / tries 1",
          "settled ran 0 / far 1 1 / near 1 1 / state 1 1 1 0 0 / end")


def flags():
    world = PLAIN + r' / far 1 6 / f 5 S "a\0d\0a" / near 1 8 / n 7 F "a\0a" / state 3 1 1 5 7 / e 5 7 - / end'
    trial("flags set on both sides", world + " / tries 1",
          r'settled ran 0 / flags pull 5 7 +S / flags push 5 7 +F / far 1 6 / f 5 FS "a\0d\0a" / near 1 8 / n 7 FS "a\0a" / state 4 1 1 5 7 / e 5 7 FS / end')
    trial("flags cleared on both sides",
          PLAIN + r' / far 1 6 / f 5 F "a\0d\0a" / near 1 8 / n 7 S "a\0a" / state 3 1 1 5 7 / e 5 7 FS / end / tries 1',
          r'settled ran 0 / flags pull 5 7 -S / flags push 5 7 -F / far 1 6 / f 5 - "a\0d\0a" / near 1 8 / n 7 - "a\0a" / state 4 1 1 5 7 / e 5 7 - / end')
    trial("far UIDVALIDITY changed", world.replace("far 1 6", "far 2 6") + " / tries 1",
          r'fault 3 0 / far 2 6 / f 5 S "a\0d\0a" / near 1 8 / n 7 F "a\0a" / state 3 1 1 5 7 / e 5 7 - / end', 1)
    pending_flags(world)


def pending_flags(world):
    """The same mailboxes, where an earlier process has left its plan."""
    plan = r"journal 1\0arun 4\0afar 1 5 6\0anear 1 7 8\0as flags pull 5 7 +S\0as flags push 5 7 +F\0an record 5 7 FS\0ago\0a"
    with_journal = ' / tries 1 / journal "{}"'.format
    ended = r'far 1 6 / f 5 FS "a\0d\0a" / near 1 8 / n 7 FS "a\0a" / state 4 1 1 5 7 / e 5 7 FS / end'
    trial("pending plan, far UIDVALIDITY changed", world.replace("far 1 6", "far 2 6") + with_journal(plan),
          r'fault 3 0 / far 2 6 / f 5 S "a\0d\0a" / near 1 8 / n 7 F "a\0a" / state 3 1 1 5 7 / e 5 7 - / end', 1)
    trial("pending plan, near UIDVALIDITY changed", world.replace("near 1 8", "near 2 8") + with_journal(plan),
          r'fault 3 0 / far 1 6 / f 5 S "a\0d\0a" / near 2 8 / n 7 F "a\0a" / state 3 1 1 5 7 / e 5 7 - / end', 1)
    trial("pending plan of flags", world + with_journal(plan), "settled finished 0 / flags pull 5 7 +S / flags push 5 7 +F / " + ended)
    trial("pending plan of flags, one step logged", world + with_journal(plan + r"d 1\0a"),
          "settled finished 0 / flags push 5 7 +F / " + ended.replace("n 7 FS", "n 7 F"))
    trial("journal of the state's own run", world.replace("state 3", "state 4") + with_journal(plan),
          "settled ran 0 / flags pull 5 7 +S / flags push 5 7 +F / " + ended.replace("state 4", "state 5"))


def gone():
    world = PLAIN + r' / far 1 6 / near 1 8 / n 7 S "a\0a" / state 3 1 1 5 7 / e 5 7 S / end'
    left = r'gone pull 5 7 / far 1 6 / near 1 8 / n 7 ST "a\0a" / state 4 1 1 5 7 / e 0 7 S / end'
    trial("message gone", world + " / tries 1", "settled ran 0 / " + left)
    trial("message gone, flag change stopped behind", world + " / tries 2 / stop after folder.rename 1", "settled finished 1 / " + left)
    trial("message gone, near expunge", world.replace("expunge None", "expunge Near") + " / tries 1",
          "settled ran 0 / gone pull 5 7 / expunge near 7 / far 1 6 / near 1 8 / state 4 1 1 5 7 / end")
    trial("expunge stopped behind",
          r'sync None / expunge Near / far 1 6 / f 5 - "a\0d\0a" / near 1 8 / n 7 T "a\0a" / state 3 1 1 5 7 / e 5 7 - / end / tries 2 / stop after folder.remove 1',
          r'settled finished 1 / expunge near 7 / far 1 6 / f 5 - "a\0d\0a" / near 1 8 / state 4 1 1 5 7 / e 5 7 - / end')
    trial("far expunge alone", r'sync Full / expunge Far / far 1 2 / f 1 T "a\0d\0a" / near 1 1 / state 0 0 0 0 0 / end / tries 1',
          "settled ran 0 / expunge far 1 / far 1 2 / near 1 1 / state 1 1 1 1 0 / end")


def push():
    world = PLAIN + r' / far 1 1 / near 1 2 / n 1 - "a\0a" / state 0 0 0 0 0 / end'
    left = rf'far 1 2 / f 1 - "X-TUID: {MARK}\0d\0aa\0d\0a" / near 1 2 / n 1 - "a\0a" / state 1 1 1 0 1 / e 1 1 - / end'
    trial("first push", world + " / tries 1", "settled ran 0 / new push 1 -> 1 / " + left)
    for count in range(28):
        trial(f"reply to APPEND cut behind {count} bytes", world + f" / tries 2 / cut reply 1 {count}", "settled finished 1 / found push 1 -> 1 / " + left)
    for count in range(26):
        trial(f"literal of APPEND cut behind {count} octets", world + f" / tries 2 / cut send 1 {count}", "settled finished 1 / new push 1 -> 1 / " + left)
    trial("no far UID left", world.replace("far 1 1", "far 1 4294967295") + " / tries 1",
          r'fault 2 0 / far 1 4294967295 / near 1 2 / n 1 - "a\0a" / state 0 0 0 0 0 / end', 1)


def pull_stopped():
    world = PLAIN + r' / far 1 2 / f 1 - "a\0d\0a" / near 1 1 / state 0 0 0 0 0 / end'

    def left(mark, uid=1):
        return rf'far 1 2 / f 1 - "a\0d\0a" / near 1 {uid + 1} / n {uid} - "X-TUID: {mark}\0aa\0a" / state 1 1 1 1 0 / e 1 {uid} - / end'

    trial("plan torn", world + " / tries 2 / stop part shelf.append 1 67", "settled ran 1 / new pull 1 -> 1 / " + left(SECOND_MARK))
    trial("logged step torn", world + " / tries 2 / stop part shelf.append 2 3", "settled finished 1 / found pull 1 -> 1 / " + left(MARK))
    trial("stopped behind the new state", world + " / tries 2 / stop after shelf.replace 1", "settled already 1 / " + left(MARK))
    trial("stopped behind the journal's end", world + " / tries 2 / stop after shelf.remove 1", "settled already 1 / " + left(MARK))
    trial("stopped before the new state", world + " / tries 2 / stop before shelf.replace 1", "settled finished 1 / " + left(MARK))
    trial("stopped before the copy's rename", world + " / tries 2 / stop before folder.rename 1", "settled finished 1 / new pull 1 -> 2 / " + left(MARK, 2))
    trial("stopped for good", world + " / tries 1 / stop before folder.rename 1", r'fault 1 1 / far 1 2 / f 1 - "a\0d\0a" / near 1 2 / state 0 0 0 0 0 / end', 1)
    trial("no near UID left", world.replace("near 1 1", "near 1 4294967295") + " / tries 1",
          r'fault 6 0 / far 1 2 / f 1 - "a\0d\0a" / near 1 4294967295 / state 0 0 0 0 0 / end', 1)
    journals(world, left)


def journals(world, left):
    journal = rf"journal 1\0arun 1\0afar 1 1 2\0anear 1 0 1\0as new pull 1 - {MARK}\0ago\0a"
    untouched = r'far 1 2 / f 1 - "a\0d\0a" / near 1 1 / state 0 0 0 0 0 / end'
    with_journal = world + ' / tries 1 / journal "{}"'
    trial("plan of an earlier process", with_journal.format(journal), "settled finished 0 / new pull 1 -> 1 / " + left(MARK))
    trial("plan without its last line end", with_journal.format(journal[:-3]), "settled ran 0 / new pull 1 -> 1 / " + left(MARK))
    trial("log with a gap", with_journal.format(journal + r"d 2 1\0a"), "fault 5 0 / " + untouched, 1)
    trial("plan of a later run", with_journal.format(journal.replace("run 1", "run 2")), "fault 5 0 / " + untouched, 1)
    trial("plan of another UIDVALIDITY", with_journal.format(journal.replace("far 1 1 2", "far 2 1 2")), "fault 3 0 / " + untouched, 1)
    trial("greatest run", world.replace("state 0 0 0 0 0", "state 18446744073709551615 1 1 0 0") + " / tries 1",
          r'fault 4 0 / far 1 2 / f 1 - "a\0d\0a" / near 1 1 / state 18446744073709551615 1 1 0 0 / end', 1)
    refused("no tries", world, 8)
    refused("tries of zero", world + " / tries 0", 8)
    refused("call that cannot stop", world + " / tries 1 / stop before folder.sync 1", 9)
    refused("part of a call without parts", world + " / tries 1 / stop part folder.write_tmp 1 3", 9)
    refused("tries with a leading zero", world + " / tries 01", 8)
    refused("two journals", world + ' / tries 1 / journal "" / journal ""', 10)
    refused("cut of no APPEND", world + " / tries 1 / cut reply 0 1", 9)
    refused("bad Sync words", "sync PullNew Pull", 1)
    refused("text that ends early", PLAIN, 3)


def waiting():
    world = PLAIN + r' / far 1 9 / f 8 S "x\0d\0a" / near 1 4 / n 3 S "x\0a" / w - "y\0a" / state 2 1 1 0 3 / e 8 3 S / end'

    def left(uid):
        return rf'far 1 10 / f 8 S "x\0d\0a" / f 9 - "X-TUID: {MARK}\0d\0ay\0d\0a" / near 1 {uid + 1} / n 3 S "x\0a" / n {uid} - "y\0a" / state 3 1 1 8 {uid} / e 8 3 S / e 9 {uid} - / end'

    trial("waiting file", world + " / tries 1", "settled ran 0 / new push 4 -> 9 / " + left(4))
    trial("waiting file, stopped behind APPEND", world + " / tries 2 / stop after APPEND 1", "settled finished 1 / found push 4 -> 9 / " + left(4))
    trial("waiting file, stopped behind its UID was set aside", world + " / tries 2 / stop after folder.replace_meta 1", "settled ran 1 / new push 5 -> 9 / " + left(5))


def acts():
    """Other clients flag and remove messages meanwhile."""
    world = PLAIN + r' / far 1 6 / f 5 - "a\0d\0a" / near 1 8 / n 7 S "a\0a" / state 3 1 1 5 7 / e 5 7 - / end'
    left = r'flags push 5 7 +S / far 1 6 / f 5 {} "a\0d\0a" / near 1 8 / n 7 S "a\0a" / state 4 1 1 5 7 / e 5 7 S / end'.format
    trial("far message flagged between listing and STORE", world + " / tries 1 / flag far before STORE 1 5 +F", "settled ran 0 / " + left("FS"))
    trial("far message flagged at a STORE that stops", world + " / tries 2 / stop before STORE 1 / flag far before STORE 1 5 +F", "settled finished 1 / " + left("FS"))
    trial("far message given the flag of the step, and another taken", world.replace("f 5 -", "f 5 F").replace("e 5 7 -", "e 5 7 F") + " / tries 1 / flag far before STORE 2 5 +S -F",
          "settled ran 0 / " + left("S").replace("+S /", "+S -F /"))
    trial("acts that name nothing", world + " / tries 1 / remove far before STORE 1 4 / flag near before folder.names 1 8 +F", "settled ran 0 / " + left("S"))
    trial("act of a call that is never made", world + " / tries 1 / remove far before EXPUNGE 1 5", "settled ran 0 / " + left("S"))
    trial("near message flagged before its rename", world.replace("f 5 -", "f 5 S").replace("n 7 S", "n 7 -") + " / tries 2 / flag near before folder.rename 1 7 +F",
          "settled finished 1 / " + left("S").replace("push", "pull").replace("n 7 S", "n 7 FS"))
    trial("keyword set before the listing", "sync Full / expunge None / keyword a x" + world[len(PLAIN):] + " / tries 1 / flag near before folder.names 1 7 +a -S / flag far before FETCH 1 5 +F",
          r'settled ran 0 / flags pull 5 7 +F / flags push 5 7 +a / far 1 6 / f 5 Fa "a\0d\0a" / near 1 8 / n 7 Fa "a\0a" / state 4 1 1 5 7 / e 5 7 Fa / end')
    acts_at_removals()
    acts_at_copies()
    for number, line in enumerate(("flag far before STORE 1", "flag far before folder.names 1 5 +S", "flag near before STORE 1 5 +S", "flag far after STORE 1 5 +S", "flag far before STORE 1 0 +S",
                                   "flag far before STORE 1 5 +a", "flag far before STORE 1 5 -S +F", "flag far before STORE 1 5 +-", "remove far before STORE 1 5 +S", "remove far before STORE 0 5")):
        refused(f"bad act {number}", world + f" / tries 1 / {line}", 11)


def acts_at_removals():
    world = r'sync Full / expunge Both / far 1 3 / f 1 S "a\0d\0a" / f 2 T "b\0d\0a" / near 1 3 / n 1 S "a\0a" / n 2 T "b\0a" / state 1 1 1 2 2 / e 1 1 S / e 2 2 T / end'
    removed = r'expunge far 2 / expunge near 2 / far 1 3 / f 1 S "a\0d\0a" / {}near 1 3 / n 1 S "a\0a" / {}state 2 1 1 2 2 / e 1 1 S / end'.format
    # Neither removal is made of a message that is not marked at that moment. These runs are not guarded as those of mbsync are.
    trial("undeleted before EXPUNGE", world + " / tries 1 / flag far before EXPUNGE 1 2 -T", "settled ran 0 / " + removed(r'f 2 - "b\0d\0a" / ', ""))
    trial("undeleted before its file is removed", world + " / tries 2 / flag near before folder.remove 1 2 -T",
          "settled finished 1 / " + removed("", r'n 2 - "b\0a" / ').replace("expunge far 2 / ", ""))
    trial("removed before EXPUNGE", world + " / tries 1 / remove far before EXPUNGE 1 2", "settled ran 0 / " + removed("", ""))
    trial("file removed between renames",
          PLAIN + r' / far 1 3 / f 1 S "a\0d\0a" / f 2 S "b\0d\0a" / near 1 3 / n 1 - "a\0a" / n 2 - "b\0a" / state 1 1 1 2 2 / e 1 1 - / e 2 2 - / end / tries 2 / remove near before folder.rename 2 2',
          r'settled finished 1 / flags pull 2 2 +S / far 1 3 / f 1 S "a\0d\0a" / f 2 S "b\0d\0a" / near 1 3 / n 1 S "a\0a" / state 2 1 1 2 2 / e 1 1 S / e 2 2 S / end')


def acts_at_copies():
    world = PLAIN + r' / far 1 3 / f 1 S "a\0d\0a" / f 2 - "b\0d\0a" / near 1 1 / state 0 0 0 0 0 / end'
    trial("removed before it is fetched", world + " / tries 1 / remove far before FETCH 2 1",
          rf'settled ran 0 / void pull 1 / new pull 2 -> 1 / far 1 3 / f 2 - "b\0d\0a" / near 1 2 / n 1 - "X-TUID: {SECOND_MARK}\0ab\0a" / state 1 1 1 2 0 / e 2 1 - / end')
    trial("acts after arrivals, in their order",
          PLAIN + r' / far 1 2 / f 1 - "a\0d\0a" / near 1 1 / state 0 0 0 0 0 / end / tries 1 / flag far before FETCH 1 2 +S / flag far before FETCH 1 2 +F -S / arrive far before FETCH 1 - "b\0d\0a"',
          rf'settled ran 0 / new pull 1 -> 1 / new pull 2 -> 2 / far 1 3 / f 1 - "a\0d\0a" / f 2 F "b\0d\0a" / near 1 3 / n 1 - "X-TUID: {MARK}\0aa\0a" / n 2 F "X-TUID: {SECOND_MARK}\0ab\0a" / state 1 1 1 2 0 / e 1 1 - / e 2 2 F / end')
    # A copy that others remove after its reply was lost is made again.
    trial("copy removed whose reply was lost",
          PLAIN + r' / far 1 1 / near 1 2 / n 1 - "a\0a" / state 0 0 0 0 0 / end / tries 2 / stop after APPEND 1 / remove far before FETCH 2 1',
          rf'settled finished 1 / new push 1 -> 2 / far 1 3 / f 2 - "X-TUID: {MARK}\0d\0aa\0d\0a" / near 1 2 / n 1 - "a\0a" / state 1 1 1 0 1 / e 2 1 - / end')


def unfolded(text):
    return "".join(line + "\n" for line in text.split(" / ")) if text else ""


def run(tally, program, arguments, name, text, printed, status, told):
    """Runs a trial, and looks whether its result is the one that was written down."""
    ran = subprocess.run([program, *arguments], input=unfolded(text).encode(), capture_output=True, check=False)
    found = ran.stdout.decode(), ran.returncode, ran.stderr.decode()
    wanted = unfolded(printed), status, unfolded(told)
    if found == wanted:
        tally.passes()
    else:
        tally.fails(f"{name} {' '.join(arguments)}\n  wanted {wanted}\n  found  {found}")


def main():
    words = parser_of(__doc__)
    words.add_argument("program", nargs="?", default=os.path.join(TOP, "bin", "mbtrial"), help="bin/mbtrial, if it is left out")
    program = words.parse_args().program
    for part in first_pull, flags, gone, push, pull_stopped, waiting, acts:
        part()
    tally = Tally()
    for each in TRIALS:
        for arguments in ([], ["--tcp"]):
            run(tally, program, arguments, *each)
    print(f"{tally.passed} of {2 * len(TRIALS)} runs as expected")
    run(tally, program, ["--udp"], "other argument", "", "", 2, "mbtrial: usage")
    tally.end()


if __name__ == "__main__":
    main()
