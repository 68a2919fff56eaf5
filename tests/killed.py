#!/usr/bin/env python3
"""Kills mbsync at random moments, and looks whether the next run brings everything to its end.

A round changes both sides at random (new messages, flags, removals; the far one over raw sockets to trial-imapd, the near one by
files), starts a run and kills it by `kill -9` at a random moment, sometimes several times, sometimes with messages that come in
between; then one run has to end well. What both sides hold then, and what the state records, is compared with a model of docs/RULES.md
that is no code of mbsync (oracle/run_model.py): nothing may be lost, duplicated or resurrected, each flag has to be as the rules say, each
byte and each UID as it was, and copies have to be in the order of their sources. Sync and Expunge are chosen anew for each round. A wrong
round is printed with its seed, and ends the script. With --calls a run is killed where a system call begins that is chosen at random, with
the help of strace.

With --server the far side is the INBOX of a real server, with the user `u` and the password `p`: it is emptied first. With --process
each second kill meets the processes of this name instead of mbsync: those of the server that serve a connection.

--self-test tries the judge: on a synchroniser in memory that is right, and on wrong ones, each of which it has to catch."""
import collections
import os
import pathlib
import random
import re
import shutil
import signal
import subprocess
import sys
import tempfile
import threading
import time

sys.path.insert(0, str(pathlib.Path(__file__).resolve().parents[1]))
from tests.support.configuration import configured
from tests.support.imap_side import KEYWORD_LINES, ImapSide
from tests.support.maildir_side import MaildirSide
from tests.support.measured import STRACE_ROW
from tests.support.places import MBSYNC, must_run, parser_of
from tests.support.real_side import RealSide
from tests.support.soak import Soak
from tests.support.stand_ins import WRONG, Right
from tests.support.tally import Tally
from tests.support.trial_imapd import Server, build, world

MOST_SECONDS = 120
# What a run prints whose server was killed.
SERVER_ENDED = re.compile(r"^mbsync: (soak:INBOX: stopped|cannot open far)$", re.MULTILINE)
CHANNEL = """Channel soak
Far :far:
Near :near:
Sync %s
Expunge %s
SyncState *
""" + "".join(f"Keyword {line}\n" for line in KEYWORD_LINES)


class Seconds:
    """Kills after some time."""

    def __init__(self):
        self.usual = collections.deque([0.2], maxlen=20)
        self.output = ""
        self.is_servers_turn = False

    def run(self, command, share):
        """The status of a run, which is killed after this share of the time that three of four runs took of late."""
        most = MOST_SECONDS if share is None else share * sorted(self.usual)[3 * len(self.usual) // 4]
        start = time.monotonic()
        process = subprocess.Popen(command, stdout=subprocess.PIPE, stderr=subprocess.STDOUT, text=True)
        try:
            self.output, _ = process.communicate(timeout=most)
        except subprocess.TimeoutExpired:
            self.kill(process)
            self.output, _ = process.communicate()
        if process.returncode == 0:
            self.usual.append(time.monotonic() - start)
        return process.returncode

    def kill(self, process):
        process.send_signal(signal.SIGKILL)


class EitherEnd(Seconds):
    """Kills the run, or else the processes of the server that serve a connection, in turn."""

    def __init__(self, name):
        super().__init__()
        self.name, self.is_servers_turn = name, False

    def kill(self, process):
        self.is_servers_turn = not self.is_servers_turn
        if self.is_servers_turn:
            subprocess.run(["pkill", "-KILL", "-x", self.name], check=False)
        else:
            super().kill(process)


class Calls(Seconds):
    """Kills at a system call: strace counts the calls of a name, and sends the signal where one of them begins."""

    NAMES = ["rename", "write", "fsync", "unlink", "openat", "close", "read", "sendto", "recvfrom", "getdents64"]

    def __init__(self, rng):
        super().__init__()
        self.rng = rng
        self.counts = {name: 20 for name in self.NAMES}

    def run(self, command, share):
        if share is None:
            return self.counted(command)
        name = self.rng.choice([name for name in self.NAMES if self.counts[name]])
        number = 1 + int(share * self.counts[name])
        kill = ["-e", f"trace={name}", "-e", f"inject={name}:signal=KILL:when={number}"]
        return super().run(["strace", "-f", "-qq", "-o", os.devnull, *kill, *command], None)

    def counted(self, command):
        """The status of a run to its end, whose calls are counted."""
        with tempfile.NamedTemporaryFile("r") as table:
            status = super().run(["strace", "-f", "-c", "-o", table.name, *command], None)
            found = {name: int(count) for count, name in STRACE_ROW.findall(table.read())}
        self.counts = {name: max(found.get(name, 0), 9 * self.counts[name] // 10) for name in self.NAMES}
        return status


class Programs:
    """A server, a Maildir folder, and the program that is tried. `far_side` opens the far side at the server's port."""

    def __init__(self, program, folder, port, far_side, moments):
        self.program = program
        self.folder = folder
        self.port = port
        self.far_side = far_side
        self.near = MaildirSide(os.path.join(folder, "INBOX"))
        self.moments = moments
        self.rng = random.Random(0)

    def near_side(self):
        return self.near

    def state(self):
        return self.near.text(".mbsyncstate")

    def attempt(self, words, share, deliver):
        """Runs the program, and kills it after this share of what a run usually takes, or not for none. Meanwhile `deliver` is called."""
        configuration = os.path.join(self.folder, "mbsyncrc")
        with open(configuration, "w", encoding="ascii") as file:
            file.write(configured(self.port, self.folder, CHANNEL % tuple(words)))
        state, delivery = self.state(), threading.Timer(self.rng.random() * 0.1, deliver or int)
        delivery.start()
        status = self.moments.run([self.program, "-c", configuration, "soak"], share)
        delivery.join()
        if status == 0:
            return "ended"
        is_killed = status == -signal.SIGKILL or (self.moments.is_servers_turn and SERVER_ENDED.search(self.told()))
        return self.standing(state) if is_killed and share is not None else "failed"

    def told(self):
        return self.moments.output

    def standing(self, state):
        """How far a killed run has come, by its files."""
        journal = (self.near.text(".mbsyncstate.journal") or "").split("\n")[:-1]
        if self.state() != state:
            return "after the new state"
        if "go" not in journal:
            return "before the plan" if not journal else "in the plan"
        done = sum(line[:2] in ("d ", "v ") for line in journal)
        steps = sum(line[:2] == "s " for line in journal)
        return "before the first step" if done == 0 and steps else "between steps" if done < steps else "after the last step"


def soak(place, seed, rounds, is_usual=False):
    """Rounds up to the first with something wrong; gives their number, how killed runs stood, and what is wrong."""
    trial, stood = Soak(place, seed), collections.Counter()
    trial.changes.is_usual = is_usual
    for number in range(1, rounds + 1):
        told = trial.round()
        stood.update(told.kills)
        if told.wrong:
            return number, stood, told.wrong
    return rounds, stood, []


def self_test(seed, rounds):
    """Looks whether the judge lets the right synchroniser pass, and catches each wrong one."""
    tally = Tally()
    for kind in (Right, *WRONG):
        number, stood, wrong = soak(kind(seed), seed, rounds)
        told = f"round {number}: {wrong[0]}" if wrong else f"{number} rounds, nothing wrong, {dict(stood)}"
        tally.check(f"{kind.__name__}: {told}", bool(wrong) == (kind is not Right))
    tally.end()


def try_program(program, seed, rounds, moments):
    """Rounds over trial-imapd."""
    build()
    with tempfile.TemporaryDirectory() as folder:
        file = os.path.join(folder, "empty.world")
        with open(file, "wb") as text:
            text.write(world([], KEYWORD_LINES))
        server = Server(file, 65535)
        try:
            server.connect().logout()
            try_over(Programs(program, folder, server.port, lambda: ImapSide(server.port), moments), seed, rounds)
        finally:
            server.stop()


def try_real(program, address, seed, rounds, moments):
    """Rounds over a real server."""
    with RealSide(address) as far:
        far.empty()
    with tempfile.TemporaryDirectory() as folder:
        try_over(Programs(program, folder, address[1], lambda: RealSide(address), moments), seed, rounds, True)


def try_over(programs, seed, rounds, is_usual=False):
    """Rounds over these programs, each of which is a check; ends the script."""
    tally = Tally()
    number, stood, wrong = soak(programs, seed, rounds, is_usual)
    print("killed runs: " + ", ".join(f"{count} {how}" for how, count in stood.most_common()))
    tally.passes(number - bool(wrong))
    if wrong:
        tally.fails("\n".join(f"seed {seed}, round {number}: {line}" for line in wrong))
        kept = tempfile.mkdtemp(prefix="killed-")
        subprocess.run(["cp", "-a", programs.folder, kept], check=True)
        print(f"the near side is kept in {kept}")
    print(f"seed {seed}: {number} rounds, " + ("something is wrong" if wrong else "nothing lost, duplicated or resurrected"))
    tally.end()


def main():
    words = parser_of(__doc__)
    words.add_argument("--program", default=MBSYNC, help="the built mbsync, if it is left out")
    words.add_argument("--rounds", type=int, default=200)
    words.add_argument("--seed", type=int, default=int(time.time()), help="the time, if it is left out")
    words.add_argument("--calls", action="store_true")
    words.add_argument("--server", metavar="HOST:PORT")
    words.add_argument("--process", metavar="NAME")
    words.add_argument("--self-test", action="store_true")
    words = words.parse_args()
    if words.self_test:
        self_test(words.seed, words.rounds)
    must_run(words.program)
    if words.calls and shutil.which("strace") is None:
        sys.exit("strace is not installed")
    if words.server:
        host, port = words.server.rsplit(":", 1)
        moments = EitherEnd(words.process) if words.process else Seconds()
        try_real(words.program, (host, int(port)), words.seed, words.rounds, moments)
    moments = Calls(random.Random(words.seed)) if words.calls else Seconds()
    try_program(words.program, words.seed, words.rounds, moments)


if __name__ == "__main__":
    main()
