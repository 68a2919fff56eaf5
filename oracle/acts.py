#!/usr/bin/env python3
"""Runs the built mbsync on random mailboxes while others act: at any command of a run, at the server or in the folder, a message comes, is
flagged, is marked as deleted or is removed; and runs break off. A judge that knows nothing of plans and states looks at what is left.

World k has the seed S + k. Both sides have messages, and are synchronised. Then some of that is done, up to three runs are made, most of
which break off at a command (before it, with its reply lost, or killed), and it is done beside them too; at last runs are made with nothing
beside them until there is nothing to do. Then each message that nobody marked or removed has to be on both sides, once, with its bytes, and
each other one nowhere. Each flag that one side alone changed is on both sides as it was left there, one that nobody changed as it was, and
one that both changed as one of them left it. No command of a run may remove a message that is not marked as deleted, or mark one that
nobody marked or removed. Each world that differs is printed with its seed and what was done. --self-test plants four faults in turn in what
a run leaves, each of which has to be seen."""
import os
import pathlib
import random
import sys
from collections import Counter

sys.path.insert(0, str(pathlib.Path(__file__).resolve().parents[1]))
from tests.support.machine import FLAGS, Machine, message, name_of, plain
from tests.support.places import MBSYNC, must_run, parser_of
from tests.support.scripted_server import Box, ScriptedServer, letters_of
from tests.support.tally import Tally

CLEAN = [0, "c:INBOX", "ran"]
SIDES = ("far", "near")
ACTS = ("flag", "flag", "flag", "deliver", "mark", "remove")
STOPS = ("before", "lost", "killed")
# After so many runs with nothing beside them there has to be nothing to do.
MOST_RUNS = 8


class World:
    """Two mailboxes, what others do to them, and the runs between."""

    def __init__(self, program, server, seed):
        self.rng, self.server = random.Random(seed), server
        server.boxes = {"INBOX": Box()}
        server.script, server.added = self.comes, self.was_added
        self.machine = Machine(program, server, 1)
        self.log, self.wrong, self.how = [], [], Counter()
        self.names, self.gone, self.removable = [], set(), []
        # The flags when all was quiet last, and what each side changed since, by name and letter.
        self.base, self.changed = {}, {side: {} for side in SIDES}
        self.number, self.acts, self.stop, self.process, self.loses = 0, 0.0, None, None, False

    def close(self):
        self.server.script = self.server.added = None
        self.machine.close()

    # ---- what others do

    def standing(self, side):
        """What tells a message of this side, its flags and its name."""
        if side == "far":
            return [(uid, letters, name_of(data)) for uid, (letters, data) in self.server.boxes["INBOX"].messages.items()]
        return [((path, parts), frozenset(parts["letters"] or ""), name) for path, parts, name in self.machine.files()]

    def give(self, side, place, letters):
        """Gives a message these flags."""
        if side == "far":
            self.server.boxes["INBOX"].flag(place, letters)
        else:
            self.machine.rename(*place, letters)

    def deliver(self, side):
        name = f"m{len(self.names) + 1}"
        letters = frozenset(it for it in FLAGS if self.rng.random() < 0.2)
        if side == "far":
            self.server.boxes["INBOX"].add(message(name), letters)
        else:
            self.machine.near.add(f"1700000000.{name}.machines", message(name).replace(b"\r\n", b"\n"), letters)
        self.names.append(name)
        self.changed[side].update({(name, it): it in letters for it in FLAGS})
        return name

    def flag(self, side):
        place, letters, name = self.rng.choice(self.standing(side))
        letter = self.rng.choice(FLAGS)
        self.give(side, place, letters ^ {letter})
        self.changed[side][name, letter] = letter not in letters
        return f"{name} {'-' if letter in letters else '+'}{letter}"

    def mark(self, side):
        place, letters, name = self.rng.choice([it for it in self.standing(side) if it[2] in self.removable])
        self.gone.add(name)
        self.give(side, place, letters | {"T"})
        return name

    def remove(self, side):
        place, _, name = self.rng.choice([it for it in self.standing(side) if it[2] in self.removable])
        self.gone.add(name)
        if side == "far":
            del self.server.boxes["INBOX"].messages[place]
        else:
            pathlib.Path(place[0]).unlink()
        return name

    def act(self, beside=""):
        """One act; none where no message is there for it."""
        kind, side = self.rng.choice(ACTS), self.rng.choice(SIDES)
        try:
            done = getattr(self, kind)(side)
        except IndexError:
            return
        self.how["acts"] += 1
        self.log.append(f"{side}: {kind} {done}{beside}")

    # ---- runs

    def comes(self, talk, command):
        """A command of a run has come: what others do before it, and whether the run breaks off at it."""
        self.number += 1
        if self.rng.random() < self.acts:
            self.act(f" before {command.verb.decode()} {command.count}")
        self.look(command)
        if self.stop is None or self.number != self.stop[0]:
            return False
        how = self.stop[1]
        self.log.append(f"{how} at {command.verb.decode()} {command.count}")
        self.how[how] += 1
        if how == "killed":
            self.process.kill()
            self.process.wait()
        self.loses = how == "lost"
        if self.loses:
            if command.verb == b"APPEND":
                return False
            self.done_unheard(talk, command)
        talk.hang_up()
        return True

    def done_unheard(self, talk, command):
        """The server does what a command asks for, and its reply is lost."""
        stream, talk.stream = talk.stream, Deaf()
        talk.answer(command)
        talk.stream = stream

    def was_added(self, talk, _command):
        """A message was appended: whether the reply is lost."""
        if self.loses:
            talk.hang_up()
        return self.loses

    def look(self, command):
        """What a command may not do."""
        box = self.server.boxes["INBOX"]
        if command.verb == b"UID EXPUNGE":
            self.wrong += [f"{uid} is to be removed, and is not marked" for uid in box.named(command.words) if "T" not in box.messages[uid][0]]
        if command.verb == b"UID STORE" and b"+FLAGS" in command.words and "T" in letters_of(command.words[command.words.index(b"(") + 1:-1]):
            named = [name_of(box.messages[uid][1]) for uid in box.named(command.words.split(b" ")[0])]
            self.wrong += [f"{name} is marked, and nobody marked or removed it" for name in named if name not in self.gone]

    def run(self, acts=0.0, stop=None):
        """A run, with this share of acts before its commands, which breaks off at the command of this number if it is given."""
        self.number, self.acts, self.stop, self.loses = 0, acts, stop, False
        self.process = self.machine.start()
        out, faults = self.process.communicate(timeout=120)
        self.server.rest()
        told = [self.process.returncode, *(out + faults).decode("latin-1").splitlines()]
        self.log.append(f"ran: {told}")
        self.how["runs"] += 1
        return told

    def settle(self):
        """Runs with nothing beside them, until there is nothing to do."""
        told = None
        for _ in range(MOST_RUNS):
            told = self.run()
            if told == CLEAN:
                return
        self.wrong.append(f"after {MOST_RUNS} runs there is something to do: {told}")

    # ---- the judge

    def judge(self):
        """Notes what is wrong with what stands on both sides."""
        flags = {}
        for side in SIDES:
            standing = self.standing(side)
            there = Counter(name for _, _, name in standing)
            self.wrong += [f"{side}: {name} is there {count} times" for name, count in there.items() if count > 1]
            self.wrong += [f"{side}: {name} was removed, and is there" for name in there if name in self.gone]
            self.wrong += [f"{side}: {name} was kept, and is gone" for name in self.names if name not in self.gone and name not in there]
            flags.update({(side, name): letters for _, letters, name in standing})
        texts = {"far": [data for _, data in self.server.boxes["INBOX"].messages.values()], "near": [it[2] for it in self.machine.near.messages()]}
        self.wrong += [f"{side}: {data!r} is no message as it came" for side in SIDES for data in texts[side] if plain(data) != message(name_of(data))]
        self.wrong += [f"{name} {letter} is {found} on the {side} side, and should be {wanted}" for (side, name), letters in flags.items()
                       for letter in FLAGS if (found := letter in letters) not in (wanted := self.wanted(name, letter))]
        self.wrong += [f"{name} has other flags on each side" for name in self.names
                       if ("far", name) in flags and ("near", name) in flags and flags["far", name] != flags["near", name]]

    def wanted(self, name, letter):
        """How a flag may be in the end."""
        return {it[name, letter] for it in self.changed.values() if (name, letter) in it} or {self.base[name, letter]}

    def is_quiet(self):
        """Takes what stands on both sides as what was synchronised."""
        standing = self.standing("far")
        self.removable = sorted(name for _, _, name in standing)
        self.base = {(name, it): it in letters for _, letters, name in standing for it in FLAGS}
        self.changed = {side: {} for side in SIDES}

    def course(self, plant=None):
        """From the first messages to the judge; gives what is wrong. `plant` is done before the judge looks."""
        for _ in range(self.rng.randrange(1, 7)):
            self.deliver(self.rng.choice(SIDES))
        self.settle()
        self.judge()
        self.is_quiet()
        for _ in range(self.rng.randrange(5)):
            self.act()
        for _ in range(self.rng.randrange(1, 4)):
            stop = (self.rng.randrange(4, 16), self.rng.choice(STOPS)) if self.rng.random() < 0.7 else None
            self.run(self.rng.choice([0.1, 0.3, 0.5]), stop)
        self.settle()
        if plant:
            plant(self)
        self.judge()
        return self.wrong


class Deaf:
    """A connection on which nothing is heard."""

    def sendall(self, data):
        pass


# ---- faults, to try the judge

def loses_a_message(world):
    world.server.boxes["INBOX"].messages.popitem()


def doubles_a_message(world):
    world.server.boxes["INBOX"].add(message(world.standing("near")[0][2]))


def forgets_a_flag(world):
    for side in SIDES:
        for place, letters, name in world.standing(side):
            if name == world.names[-1]:
                world.give(side, place, letters ^ {"F"})


def cuts_a_message(world):
    path, _, _ = world.machine.files()[0]
    path = pathlib.Path(path)
    path.write_bytes(path.read_bytes()[:-1])


FAULTS = {loses_a_message: "kept, and is gone", doubles_a_message: "is there 2 times", forgets_a_flag: "and should be", cuts_a_message: "no message as it came"}


def self_test(tally, program, server):
    for plant, sign in FAULTS.items():
        for seed in range(1, 30):
            world = World(program, server, seed)
            found = world.course(lambda it: plant(it) if it.names and it.names[-1] not in it.gone else None)
            world.close()
            if any(sign in it for it in found):
                break
        tally.check(f"the judge sees that a run {plant.__name__.replace('_', ' ')}", any(sign in it for it in found), found)


def main():
    words = parser_of(__doc__)
    words.add_argument("--program", default=MBSYNC, help="the built mbsync, if it is left out")
    words.add_argument("--count", type=int, default=2000, help="how many worlds (2,000)")
    words.add_argument("--seed", type=int, default=1, help="of the first (1)")
    words.add_argument("--self-test", action="store_true", help="try the judge")
    words = words.parse_args()
    program = os.path.abspath(words.program)
    must_run(program)
    tally, server, how = Tally(), ScriptedServer(), Counter()
    if words.self_test:
        self_test(tally, program, server)
    else:
        for seed in range(words.seed, words.seed + words.count):
            world = World(program, server, seed)
            with tally.scene(f"of seed {seed}"):
                wrong = world.course()
                if wrong:
                    log = "\n        ".join(world.log)
                    tally.fails(f"seed {seed}: {wrong[:4]}\n        {log}")
                else:
                    tally.passes()
            how.update(world.how)
            world.close()
        print(", ".join(f"{count} {it}" for it, count in sorted(how.items())))
    server.stop()
    tally.end()


if __name__ == "__main__":
    main()
