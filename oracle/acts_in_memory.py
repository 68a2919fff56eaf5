#!/usr/bin/env python3
"""Runs the built mbtrial on random worlds where other clients add, flag, mark, undelete and remove messages at any call of a run, and calls
stop. A judge that knows nothing of plans and states looks at what is left. It is that of oracle/acts.py, for runs in memory.

World k has the seed S + k. Both sides are synchronised, but for some new messages. Up to five acts and up to three stops come at calls
that are drawn at random; which of the calls are made is seen by a message that comes before each. What the run leaves is given to mbtrial
again, alone, until there is nothing to do. Then each message that nobody marked or removed has to be on both sides, once, with its bytes, and
each other one nowhere; what becomes of one that was undeleted is left open. Each flag that one side alone changed is on both sides as
it was left there, one that nobody changed as it was, and one that both changed as one of them left it. Each world that differs is printed
with its seed. --self-test plants five faults in turn in what a run leaves, each of which has to be seen."""
import pathlib
import random
import re
import subprocess
import sys
from collections import Counter

sys.path.insert(0, str(pathlib.Path(__file__).resolve().parents[1]))
from oracle import random_trials
from oracle.arrivals import read_world
from oracle.mail import content, escaped
from oracle.plan_model import CELLS, text_of
from tests.support.places import must_run
from tests.support.tally import Tally

FLAGS = "DFRS"
SIDES = ("far", "near")
COMMANDS = ("SELECT", "FETCH", "FETCH", "STORE", "STORE", "EXPUNGE", "APPEND")
FOLDER = ("folder.names", "folder.read", "folder.write_tmp", "folder.rename", "folder.rename", "folder.remove", "folder.replace_meta")
SHELF = ("shelf.append", "shelf.replace", "shelf.remove")
KINDS = ("flag", "flag", "flag", "mark", "mark", "undelete", "remove", "arrive")
OWN_LINE = re.compile(rb"^N: (\d+)", re.MULTILINE)
# After so many runs with nothing beside them there has to be nothing to do.
MOST_RUNS = 8
# The message that shows whether a call is made.
PROBE = 9999


def message(number):
    return b"N: %d\nSubject: x\n\nbody %d\n" % (number, number)


def bytes_of(side, number):
    return message(number).replace(b"\n", b"\r\n") if side == "far" else message(number)


def name_of(data):
    return int(OWN_LINE.search(data)[1])


class Act:
    """What another client does before a call."""

    def __init__(self, rng, world, number):
        self.kind, self.side = rng.choice(KINDS), rng.choice(SIDES)
        self.call = rng.choice(COMMANDS if self.side == "far" else FOLDER)
        self.count = rng.choice([1, 1, 2, 2, 3, 4])
        self.uid, self.letters, data = rng.choice(world[self.side])
        self.name = name_of(data)
        self.letter = rng.choice(FLAGS)
        # Whether its call is made.
        self.is_made = False
        if self.kind == "arrive":
            self.name, self.letters = 1000 + number, "".join(it for it in FLAGS if rng.random() < 0.2)

    def line(self):
        at = f"{self.side} before {self.call} {self.count}"
        if self.kind == "arrive":
            return f'arrive {at} {self.letters or "-"} "{escaped(bytes_of(self.side, self.name))}"'
        if self.kind == "remove":
            return f"remove {at} {self.uid}"
        return f"flag {at} {self.uid} " + {"flag": ("-" if self.letter in self.letters else "+") + self.letter, "mark": "+T", "undelete": "-T"}[self.kind]


def random_world(rng):
    """Both sides synchronised, some messages marked, and some new ones."""
    numbers = iter(range(1, 100))
    world = {"cells": set(CELLS), "words": ["Full"], "expunge": SIDES, "keywords": {}, "run": 4, "waiting": [], "entries": [],
             "far_recorded": 1, "near_recorded": 1, "far_validity": 1, "near_validity": 1, "far": [], "near": [], "max_pulled": 0, "max_pushed": 0}
    far = near = 0
    for _ in range(rng.randrange(1, 7)):
        far, near, number = far + rng.choice([1, 1, 3]), near + rng.choice([1, 1, 2]), next(numbers)
        letters = "".join(it for it in FLAGS + "T" if rng.random() < (0.3 if it == "T" else 0.25))
        world["far"].append((far, letters, bytes_of("far", number)))
        world["near"].append((near, letters, bytes_of("near", number)))
        world["entries"].append((far, near, letters))
    world["max_pulled"], world["max_pushed"] = far, near
    for side, last in (("far", far), ("near", near)):
        for _ in range(rng.choice([0, 0, 1, 2])):
            last += 1
            world[side].append((last, "S" if rng.random() < 0.3 else "", bytes_of(side, next(numbers))))
        world[side + "_next"] = last + rng.choice([1, 1, 4])
    for _ in range(rng.choice([0, 0, 1])):
        world["waiting"].append(("", bytes_of("near", next(numbers))))
    return world


def random_stops(rng):
    calls = [(rng.choice(COMMANDS + FOLDER + SHELF), rng.choice([1, 1, 2, 3, 4])) for _ in range(rng.randrange(4))]
    return [f"stop {rng.choice(['before', 'after'])} {call} {number}" for call, number in dict.fromkeys(calls)]


class Course:
    """A world, what is done to it, and what becomes of it."""

    def __init__(self, seed, ask):
        self.rng, self.ask = random.Random(seed), ask
        self.world, self.wrong, self.how = random_world(self.rng), [], Counter()
        self.acts = [Act(self.rng, self.world, number) for number in range(self.rng.randrange(1, 6))]
        self.stops = random_stops(self.rng)
        self.text, self.left = "", None

    def trial(self, lines):
        # An act may end an attempt too.
        return text_of(self.world) + f"tries {len(lines) + 2}\n" + "".join(f"{line}\n" for line in lines)

    def play(self, text):
        """The first line that is printed, and the world that is left."""
        lines = self.ask(text).split("\n")
        start = next((k for k, line in enumerate(lines) if line.startswith("far ")), None)
        if start is None:
            return lines[0], None
        return lines[0], read_world(self.world, lines[start:])

    def find_made(self):
        """Plays the trial, and looks which acts have their calls made: what comes before such a call is there in the end."""
        lines = [*self.stops, *(act.line() for act in self.acts)]
        self.text = self.trial(lines)
        told, self.left = self.play(self.text)
        for act in self.acts:
            probe = f'arrive {act.side} before {act.call} {act.count} - "{escaped(bytes_of(act.side, PROBE))}"'
            act.is_made = f"N: {PROBE}\\" in self.ask(self.trial([*lines, probe]))
        return told

    def run(self, plant=None):
        """From the first world to the judge; gives what is wrong. `plant` changes what is left before the judge looks."""
        told = self.find_made()
        self.how[told.split()[0]] += 1
        if told.split()[0] != "settled":
            self.wrong.append(f"not settled: {told}")
            return self.wrong
        self.how.update(act.kind for act in self.acts if act.is_made)
        self.how["stopped"] += told.split()[-1] != "0"
        self.settle()
        if plant:
            plant(self)
        self.judge()
        return self.wrong

    def settle(self):
        """Runs with nothing beside them, until there is nothing to do."""
        for _ in range(MOST_RUNS):
            told, left = self.play(text_of(self.left) + "tries 1\n")
            if not told.startswith("settled ran"):
                self.wrong.append(f"a run alone comes to {told}")
                return
            is_quiet = same(left, self.left)
            self.left = left
            if is_quiet:
                return
        self.wrong.append(f"after {MOST_RUNS} runs there is something to do")

    # ---- the judge

    def judge(self):
        made = [act for act in self.acts if act.is_made]
        begun = {name_of(data): letters for side in SIDES for _, letters, data in self.world[side]}
        marked = {name_of(data) for side in SIDES for _, letters, data in self.world[side] if "T" in letters}
        undecided = {act.name for act in made if act.kind == "undelete"}
        gone = (marked | {act.name for act in made if act.kind in ("mark", "remove")}) - undecided
        kept = {*begun, *(name_of(data) for _, data in self.world["waiting"]), *(act.name for act in made if act.kind == "arrive")} - gone - undecided
        there = {side: Counter(name_of(data) for _, _, data in self.left[side]) for side in SIDES}
        for side in SIDES:
            self.wrong += [f"{side}: {name} is there {count} times" for name, count in there[side].items() if count > 1]
            self.wrong += [f"{side}: {name} was removed, and is there" for name in there[side] if name in gone]
            self.wrong += [f"{side}: {name} was kept, and is gone" for name in kept if name not in there[side]]
            self.wrong += [f"{side}: {data!r} is no message as it came" for _, _, data in self.left[side] if content(data) != message(name_of(data))]
        self.how["left on one side by an undelete"] += sum(name in undecided for name in there["far"].keys() ^ there["near"].keys())
        self.wrong += [f"{data!r} waits" for _, data in self.left["waiting"]]
        self.judge_flags(begun, made)

    def judge_flags(self, begun, made):
        flags = {side: {name_of(data): letters for _, letters, data in self.left[side]} for side in SIDES}
        first = {(act.name, it): {it in act.letters} for act in made if act.kind == "arrive" for it in FLAGS}
        changed = {}
        for act in made:
            if act.kind == "flag":
                changed.setdefault((act.name, act.letter), set()).add(act.letter not in act.letters)
        for name in flags["far"].keys() & flags["near"].keys():
            if sorted(flags["far"][name]) != sorted(flags["near"][name]):
                self.wrong.append(f"{name} has other flags on each side")
            for it in FLAGS:
                wanted = changed.get((name, it)) or first.get((name, it)) or {it in begun.get(name, "")}
                if (it in flags["far"][name]) not in wanted:
                    self.wrong.append(f"{name} {it} is {it in flags['far'][name]}, and should be {wanted}")


def same(world, other):
    """Whether two worlds are alike but for the number of the run."""
    return {**world, "run": 0} == {**other, "run": 0}


# ---- faults, to try the judge

def loses_a_message(course):
    course.left["far"].pop()


def doubles_a_message(course):
    uid, letters, data = course.left["near"][0]
    course.left["near"].append((uid + 1000, letters, data))


def forgets_a_flag(course):
    for side in SIDES:
        course.left[side] = [(uid, letters.replace("S", "") if "S" in letters else letters + "S", data) for uid, letters, data in course.left[side]]


def cuts_a_message(course):
    uid, letters, data = course.left["far"][0]
    course.left["far"][0] = (uid, letters, data[:-3])


def revives_a_message(course):
    gone = [data for _, letters, data in course.world["far"] if "T" in letters]
    if gone:
        course.left["far"].append((5000, "", gone[0]))


FAULTS = {loses_a_message: "kept, and is gone", doubles_a_message: "is there 2 times", forgets_a_flag: "and should be", cuts_a_message: "no message as it came",
          revives_a_message: "was removed, and is there"}


def asking(program, arguments):
    def ask(text):
        return subprocess.run([program, *arguments], input=text.encode(), capture_output=True, check=False, timeout=300).stdout.decode()
    return ask


def self_test(ask):
    tally = Tally()
    for plant, sign in FAULTS.items():
        found = []
        for seed in range(1, 60):
            course = Course(seed, ask)
            try:
                found = course.run(plant)
            except IndexError:
                continue
            if any(sign in it for it in found):
                break
        tally.check(f"the judge sees that a run {plant.__name__.replace('_', ' ')}", any(sign in it for it in found), found)
    tally.end()


def main():
    asked = random_trials.words_of(__doc__).parse_args()
    must_run(asked.program)
    ask = asking(asked.program, ["--tcp"] if asked.tcp else [])
    if asked.self_test:
        self_test(ask)
    tally, how = Tally(), Counter()
    for seed in range(asked.seed, asked.seed + asked.count):
        course = Course(seed, ask)
        wrong = course.run()
        if wrong:
            tally.fails(f"seed {seed}: {wrong[:4]}\n{course.text}")
        else:
            tally.passes()
        how.update(course.how)
    print(", ".join(f"{count} {it}" for it, count in sorted(how.items())))
    tally.end()


if __name__ == "__main__":
    main()
