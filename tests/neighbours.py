#!/usr/bin/env python3
"""Looks whether mbsync, isync and mblaze read each other's Maildir folders.

isync pulls and pushes through a go-between; its state is converted by bin/mbsync-from-isync, and mbsync has to find nothing to do,
and then to go on. mbsync pulls; isync has to copy that folder to another one, and mblaze to list it and to set a flag, which mbsync has to
push. The part of a program that is not installed is skipped, which is printed."""
import os
import pathlib
import shutil
import subprocess
import sys
import tempfile

sys.path.insert(0, str(pathlib.Path(__file__).resolve().parents[1]))
from tests.support.configuration import ISYNC_ONLY, configured, maildir_store
from tests.support.go_between import GoBetween
from tests.support.imap_side import ImapSide
from tests.support.maildir_side import MaildirSide
from tests.support.messages import subjects
from tests.support.converted import CONVERTER
from tests.support.tally import Tally
from tests.support.trial_imapd import Server, program_over, world

ISYNC = "/usr/bin/mbsync"
SUBJECTS = [b"one", b"two", b"three"]
CHANNEL = "Channel box\nFar :far:\nNear :near:\nSyncState *\n"
TALLY = Tally()


def run(*command):
    done = subprocess.run(command, capture_output=True, text=True, check=False, timeout=120)
    return done.returncode, done.stdout, done.stderr


def written(folder, name, text):
    """The path of a file with this text."""
    path = os.path.join(folder, name)
    with open(path, "w", encoding="ascii") as file:
        file.write(text)
    return path


def move_from_isync(folder, server, program):
    """isync's folder and state are taken over."""
    between, near = GoBetween(server.port), MaildirSide(os.path.join(folder, "INBOX"))
    near.add("1700000000.four", b"Subject: four\n\ntext\n", frozenset("S"))
    its = written(folder, "isyncrc", configured(between.port, folder, CHANNEL, ISYNC_ONLY))
    ours = written(folder, "mbsyncrc", configured(server.port, folder, CHANNEL))
    told = run(ISYNC, "-c", its, "box")
    TALLY.check("isync pulls and pushes", told[0] == 0 and len(near.messages()) == 4, told)
    state = os.path.join(near.path, ".mbsyncstate")
    told = run(CONVERTER, its)
    shutil.move(state + ".from-isync", state)
    with open(state, encoding="ascii") as file:
        TALLY.check("isync's state is turned into ours", told[0] == 0 and file.read().count("\ne ") == 4, told)
    before = near.messages()
    told = run(program, "-c", ours, "box")
    TALLY.check("mbsync takes it over, and has nothing to do", told == (0, "box:INBOX\nran\n", ""), told)
    TALLY.check("nothing has changed", near.messages() == before)
    with ImapSide(server.port) as far:
        far.set_flags(1, frozenset(), frozenset("F"))
    near.set_flags(next(uid for uid, _, data in near.messages() if b"four" in data), frozenset("S"), frozenset("RS"))
    told = run(program, "-c", ours, "box")
    TALLY.check("mbsync goes on behind isync", told[0] == 0 and "flags pull 1 " in told[1] and "+F" in told[1] and "+R" in told[1], told)
    between.stop()


def read_by_isync(folder, near):
    """isync copies a folder of ours to another one."""
    copy = MaildirSide(os.path.join(folder, "copy", "INBOX"))
    names = sorted(os.listdir(os.path.join(near.path, "cur")))
    stores = "".join(maildir_store(path, f"{path}/INBOX", name) for name, path in (("far", folder), ("near", f"{folder}/copy")))
    told = run(ISYNC, "-c", written(folder, "copyrc", stores + CHANNEL + "Sync Pull\n"), "box")
    TALLY.check("isync reads our folder", told[0] == 0 and subjects(copy.messages()) == subjects(near.messages()), told)
    TALLY.check("and leaves our names as they are", sorted(os.listdir(os.path.join(near.path, "cur"))) == names)


def read_by_mblaze(near, program, ours):
    """mblaze lists a folder of ours and sets a flag, which is pushed."""
    listed = run("mlist", near.path)
    TALLY.check("mblaze lists our folder", len(listed[1].split("\n")) - 1 == len(near.messages()), listed)
    told = run("mhdr", "-h", "subject", *listed[1].split())
    TALLY.check("mblaze reads our messages", sorted(told[1].split()) == sorted(subject for subject, _ in subjects(near.messages())), told)
    told = run("mflag", "-F", listed[1].split("\n", maxsplit=1)[0])
    told = run(program, "-c", ours, "box")
    TALLY.check("a flag that mblaze sets is pushed", told[0] == 0 and "flags push " in told[1] and "+F" in told[1], told)


def read_from_us(folder, server, program):
    """Our folder is read by others."""
    near = MaildirSide(os.path.join(folder, "INBOX"))
    ours = written(folder, "mbsyncrc", configured(server.port, folder, CHANNEL))
    told = run(program, "-c", ours, "box")
    TALLY.check("mbsync pulls", told[0] == 0 and len(near.messages()) == len(SUBJECTS), told)
    if os.access(ISYNC, os.X_OK):
        read_by_isync(folder, near)
    if shutil.which("mlist"):
        read_by_mblaze(near, program, ours)
    else:
        TALLY.skip("the part of mblaze", "it is not installed")


def with_server(part, program):
    with tempfile.TemporaryDirectory() as folder:
        file = os.path.join(folder, "three.world")
        with open(file, "wb") as text:
            text.write(world([b"Subject: %s\r\n\r\ntext\r\n" % subject for subject in SUBJECTS]))
        server = Server(file, 100)
        with TALLY.scene(part.__name__):
            server.connect().logout()
            part(folder, server, program)
        server.stop()


def main():
    program = program_over(__doc__)
    if os.access(ISYNC, os.X_OK):
        with_server(move_from_isync, program)
    else:
        TALLY.skip("the part of isync", f"it is not installed at {ISYNC}")
    with_server(read_from_us, program)
    TALLY.end()


if __name__ == "__main__":
    main()
