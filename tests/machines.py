#!/usr/bin/env python3
"""Three machines, each with a near mailbox and mbsync, synchronise at once with one server, while a person reads mail on each of them and on
a telephone, and runs are killed.

In each round messages come, on machines and at the server; flags are set and cleared everywhere; messages that stood everywhere when all was
quiet are marked as deleted or removed, here or there. Then all runs end, and each machine runs until there is nothing to do. The judge knows
nothing of plans and states: each message that nobody marked or removed has to be on all sides, once, with its bytes and one set of flags, and
each other one nowhere."""
import os
import pathlib
import random
import sys
import threading
import time
from collections import Counter

sys.path.insert(0, str(pathlib.Path(__file__).resolve().parents[1]))
from tests.support.machine import Machine, SharedServer, Telephone, message
from tests.support.places import MBSYNC, must_run, parser_of
from tests.support.tally import Tally

MACHINES = 3
RUNS = 3
MOST_NEW, MOST_MESSAGES = 4, 24
# After so many runs of each machine with nothing beside them there has to be nothing to do.
MOST_RUNS = 12
CLEAN = [0, "c:INBOX", "ran"]


class Course:
    """Machines, a server and what a person does, over many rounds."""

    def __init__(self, program, seed):
        self.rng = random.Random(seed)
        self.server = SharedServer()
        self.machines = [Machine(program, self.server, number) for number in range(1, MACHINES + 1)]
        self.telephone = Telephone(self.server)
        self.alive, self.gone, self.removable = set(), set(), set()
        self.count, self.log, self.how = 0, [], Counter()
        self.lock = threading.Lock()

    def close(self):
        self.server.stop()
        for machine in self.machines:
            machine.close()

    # ---- what is done

    def new(self):
        with self.lock:
            self.count += 1
            self.alive.add(f"m{self.count}")
            return f"m{self.count}"

    def act(self, actor, rng):
        """One act of a machine's reader or of the telephone; nothing where there is no message for it, or a run was just at it."""
        kind = rng.choice(["flag", "flag", "deliver", "mark", "remove"])
        try:
            if kind == "flag":
                done = actor.flag(rng)
            elif kind == "deliver":
                done = actor.deliver(self.new()) if len(self.alive) < MOST_MESSAGES else None
            else:
                done = getattr(actor, kind)(rng, self.removable - self.gone, self.gone)
        except (IndexError, FileNotFoundError):
            return
        if done:
            self.log.append(done)

    def runs(self, machine, rng):
        """Runs of a machine, of which most are killed."""
        for _ in range(RUNS):
            told = machine.run(rng.random() * 1.1 if rng.random() < 0.6 else None)
            self.how["killed" if told[0] < 0 else "stopped" if told[0] else "ended"] += 1
            self.log.append(f"machine {machine.number} ran: {told}")

    def reads(self, machine, rng, end):
        """Somebody reads mail on a machine until there is an end."""
        while not end.wait(rng.random() * 0.02):
            self.act(machine, rng)

    def rush(self):
        """All at once."""
        end, seeds = threading.Event(), [self.rng.random() for _ in range(2 * MACHINES + 1)]
        telephone = random.Random(seeds.pop())
        self.server.act = lambda: self.act(self.telephone, telephone) if telephone.random() < 0.3 else None
        readers = [threading.Thread(target=self.reads, args=(it, random.Random(seeds.pop()), end)) for it in self.machines]
        runs = [threading.Thread(target=self.runs, args=(it, random.Random(seeds.pop()))) for it in self.machines]
        for thread in readers + runs:
            thread.start()
        for thread in runs:
            thread.join()
        end.set()
        for thread in readers:
            thread.join()
        self.server.rest()
        self.server.act = None

    def settle(self):
        """Each machine runs until none has anything to do; gives what is wrong."""
        told = []
        for _ in range(MOST_RUNS):
            told = [machine.run() for machine in self.machines]
            self.log += [f"machine {machine.number} ran: {it}" for machine, it in zip(self.machines, told)]
            if all(it == CLEAN for it in told):
                return []
        return [f"after {MOST_RUNS} runs of each machine there is something to do: {told}"]

    # ---- the judge

    def sides(self):
        return {"the server": self.server.messages(), **{f"machine {it.number}": it.messages() for it in self.machines}}

    def judge(self):
        """What is wrong with what stands on all sides."""
        wrong, flags = [], {}
        for side, messages in self.sides().items():
            there = Counter(name for name, _, _ in messages)
            wrong += [f"{side}: {name} is there {count} times" for name, count in there.items() if count > 1]
            wrong += [f"{side}: {name} was removed, and is there" for name in sorted(set(there) & self.gone)]
            wrong += [f"{side}: {name} was kept, and is gone" for name in sorted(self.alive - self.gone - set(there))]
            wrong += [f"{side}: {name} has other bytes: {data!r}" for name, _, data in messages if data != message(name)]
            for name, letters, _ in messages:
                flags.setdefault(name, set()).add(frozenset(letters))
        return wrong + [f"{name} has several sets of flags: {sets}" for name, sets in sorted(flags.items()) if len(sets) > 1]

    def round(self):
        """One round; gives what is wrong."""
        self.log.clear()
        for _ in range(self.rng.randrange(MOST_NEW)):
            self.rng.choice([self.telephone, *self.machines]).deliver(self.new())
        self.rush()
        wrong = self.settle() + self.judge()
        self.alive -= self.gone
        self.gone, self.removable = set(), set(self.alive)
        return wrong


def main():
    words = parser_of(__doc__)
    words.add_argument("--program", default=MBSYNC, help="the built mbsync, if it is left out")
    words.add_argument("--rounds", type=int, default=60)
    words.add_argument("--seed", type=int, default=int(time.time()), help="the time, if it is left out")
    words = words.parse_args()
    program = os.path.abspath(words.program)
    must_run(program)
    tally, how = Tally(), Counter()
    course = Course(program, words.seed)
    for number in range(1, words.rounds + 1):
        wrong = course.round()
        if wrong:
            log = "\n        ".join(course.log)
            tally.fails(f"seed {words.seed}, round {number}: {wrong[:4]}\n        {log}")
            how.update(course.how)
            course.close()
            course = Course(program, words.seed + 1000 * number)
        else:
            tally.passes()
    how.update(course.how)
    course.close()
    print("runs: " + ", ".join(f"{count} {it}" for it, count in how.most_common()))
    print(f"seed {words.seed}: {words.rounds} rounds")
    tally.end()


if __name__ == "__main__":
    main()
