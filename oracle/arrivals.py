#!/usr/bin/env python3
"""Runs the built mbtrial on random worlds to which others add messages while calls stop, and looks whether what is left is what the
rules of docs/RULES.md say, read once more.

World k has the seed S + k. Up to three messages or files come before calls that are drawn at random, and up to three other calls stop.
Each message has a line of its own, so that it is known wherever it is. The run has to be settled, and what it leaves has to be what
outcome_model.py says of the world with those arrivals in it that were listed, followed by the others as they came: the same messages with
the same flags and bytes, but for marks, and the same entries and highest messages; which UIDs the run gave does not matter. An arrival
whose call was made has to be there. Then the world that is left is given to mbtrial again, alone, and what that run leaves has to be what
the model says: so each fit arrival is copied then. Each trial that differs is printed with its seed. At the end it says how many arrivals
were listed, came later or did not come. --self-test reads four rules of arrivals wrongly in turn, each of which some trial has to show."""
import itertools
import pathlib
import random
import re
import subprocess
import sys
from collections import Counter

sys.path.insert(0, str(pathlib.Path(__file__).resolve().parents[1]))
from oracle import random_trials
from oracle.mail import escaped, unescaped
from oracle.outcome_model import GREATEST_NEXT, fault, outcome
from oracle.plan_model import letters_of, text_of
from tests.support.places import must_run
from tests.support.tally import Tally

COMMANDS = ("SELECT", "FETCH", "STORE", "EXPUNGE", "APPEND")
FOLDER = ("folder.write_tmp", "folder.rename", "folder.remove", "folder.replace_meta")
SHELF = ("shelf.append", "shelf.replace", "shelf.remove")
OWN_LINE = re.compile(rb"^N: (\d+)", re.MULTILINE)
MARK = re.compile(rb"^X-TUID: [A-Za-z0-9_-]{12}\r*\n")
MESSAGE_LINE = re.compile(r'(?:(\d+) )?(\S+) "(.*)"', re.DOTALL)


# ---- trials

def numbered(world):
    """The world, with a line of its own in front of each message."""
    count = itertools.count(1)

    def own(data):
        return b"N: %d\n" % next(count) + data

    world = dict(world, waiting=[(letters, own(data)) for letters, data in world["waiting"]])
    for side in ("far", "near"):
        world[side] = [(uid, letters, own(data)) for uid, letters, data in world[side]]
    return world


def random_arrivals(rng, letters):
    """Side, call, number, letters and bytes of what comes, each with a line that no message of the world has."""
    arrivals = []
    for k in range(rng.randrange(1, 4)):
        side = rng.choice(["far", "near"])
        call = rng.choice(COMMANDS if side == "far" else FOLDER)
        data = b"N: %d\nSubject: came\n\n" % (1000 + k) + rng.choice([b"", b"body\n"])
        arrivals.append((side, call, rng.choice([1, 1, 2, 3]), "".join(c for c in letters if rng.random() < 0.25), data))
    return arrivals


def random_stops(rng, arrivals):
    """Lines of stops of calls before which nothing comes."""
    taken = {arrival[1:3] for arrival in arrivals}
    calls = [(rng.choice(COMMANDS + FOLDER + SHELF), rng.choice([1, 1, 2, 3])) for _ in range(rng.randrange(4))]
    return [f"stop {rng.choice(['before', 'after'])} {call} {number}" for call, number in dict.fromkeys(calls) if (call, number) not in taken]


def line_of(arrival):
    side, call, number, letters, data = arrival
    return f'arrive {side} before {call} {number} {letters or "-"} "{escaped(data)}"'


def read_world(before, lines):
    """The world that these lines say, with what `before` has beside."""
    world = dict(before, far=[], near=[], waiting=[], entries=[])
    for line in lines:
        word, _, rest = line.partition(" ")
        if word in ("far", "near"):
            world[word + "_validity"], world[word + "_next"] = map(int, rest.split())
        elif word in ("f", "n", "w"):
            uid, letters, text = MESSAGE_LINE.fullmatch(rest).groups()
            data = unescaped(text.encode("latin-1"))
            letters = "" if letters == "-" else letters
            if word == "w":
                world["waiting"].append((letters, data))
            else:
                world["far" if word == "f" else "near"].append((int(uid), letters, data))
        elif word == "state":
            world["run"], world["far_recorded"], world["near_recorded"], world["max_pulled"], world["max_pushed"] = map(int, rest.split())
        elif word == "e":
            far, near, letters = rest.split()
            world["entries"].append((int(far), int(near), "" if letters == "-" else letters))
    return world


# ---- what is left, without UIDs that a run gave

def name_of(data):
    return int(OWN_LINE.search(data)[1])


def up_to(world, opening, side, most):
    """A highest UID: itself if it was given before, or else the messages up to it that came since."""
    first = opening[side + "_next"]
    return most if most < first else sorted(name_of(data) for uid, _, data in world[side] if first <= uid <= most)


def named(world, opening):
    """What of a world does not depend on the UIDs that were given since the opening."""
    known = {}
    for side in ("far", "near"):
        for uid, _, data in world[side]:
            known[side, uid] = uid if uid < opening[side + "_next"] else ("message", name_of(data))

    def uid_of(side, uid):
        return known.get((side, uid), uid if uid < opening[side + "_next"] else "gone")

    def bare(data):
        return MARK.sub(b"X-TUID:\n", data, count=1)

    messages = {side: sorted((str(uid_of(side, uid)), letters, bare(data)) for uid, letters, data in world[side]) for side in ("far", "near")}
    entries = sorted((str(uid_of("far", far)), str(uid_of("near", near)), letters) for far, near, letters in world["entries"])
    highest = [up_to(world, opening, "far", world["max_pulled"]), up_to(world, opening, "near", world["max_pushed"])]
    return messages, sorted(world["waiting"]), entries, (world["run"], world["far_recorded"], world["near_recorded"]), highest


def with_arrivals(world, arrivals, are_read):
    """The world followed by these arrivals; near files that are read come before those that wait, each before the last."""
    world = dict(world, far=list(world["far"]), waiting=list(world["waiting"]))
    for side, _, _, letters, data in arrivals:
        if side == "far":
            world["far"].append((world["far_next"], letters, data))
            world["far_next"] += 1
        else:
            world["waiting"].insert(0 if are_read else len(world["waiting"]), (letters, data))
    return world


def expected(world, arrivals, fates, misread):
    """What is left where these became of the arrivals."""
    def fated(fate):
        return [arrival for arrival, became in zip(arrivals, fates) if became == fate]

    listed = with_arrivals(world, fated("listed"), True)
    return misread(with_arrivals(outcome(listed), fated("later"), False), fated("later"))


# ---- wrong readings

def as_it_is(world, later):
    return world


def changed_later(world, later, change):
    """The world with each later arrival changed, or taken away where nothing is left of it."""
    datas = {data for *_, data in later}
    world = dict(world)
    for side in ("far", "waiting"):
        changed = [change(message) if message[-1] in datas else message for message in world[side]]
        world[side] = [message for message in changed if message]
    return world


def deleted_is_expunged(world, later):
    return changed_later(world, later, lambda message: None if "T" in message[-2] else message)


def flags_are_touched(world, later):
    return changed_later(world, later, lambda message: (*message[:-2], message[-2].replace("S", "") if "S" in message[-2] else message[-2] + "S", message[-1]))


def has_an_entry(world, later):
    came = [(world["far_next"] - 1, 0, "")] if any(side == "far" for side, *_ in later) else []
    return dict(world, entries=world["entries"] + came)


def raises_the_highest(world, later):
    return dict(world, max_pulled=world["far_next"] - 1) if any(side == "far" for side, *_ in later) else world


WRONG_READINGS = (deleted_is_expunged, flags_are_touched, has_an_entry, raises_the_highest)


# ---- runs

class Runs:
    def __init__(self, program, arguments, misread=as_it_is):
        self.command, self.tally, self.met = [program, *arguments], Tally(), Counter()
        self.misread = misread

    def ask(self, text):
        return subprocess.run(self.command, input=text.encode(), capture_output=True, check=False, timeout=300).stdout.decode().split("\n")

    def differs(self, seed, what, text, found):
        if self.misread is as_it_is:
            self.tally.fails(f"seed {seed}: {what}\n{text[:4000]}found {found!r:.4000}\n")
        else:
            self.tally.failed += 1

    def trial(self, seed):
        rng = random.Random(seed)
        world = numbered(random_trials.random_world(seed))
        if fault(world) or any(world[side + "_next"] > GREATEST_NEXT - 100 for side in ("far", "near")):
            self.met["left out"] += 1
            return
        arrivals = random_arrivals(rng, letters_of(world["keywords"]))
        stops = random_stops(rng, arrivals)
        text = text_of(world) + f"tries {len(stops) + 1}\n"
        lines = [line_of(arrival) for arrival in arrivals]
        found = self.ask(text + "\n".join([*lines, *stops, ""]))
        if found[0].split()[0] != "settled":
            self.differs(seed, "not settled", text + "\n".join([*lines, *stops, ""]), found)
            return
        left = read_world(world, found[next(k for k, line in enumerate(found) if line.startswith("far ")):])
        whole = text + "\n".join([*lines, *stops, ""])
        made = [self.ask(text + "\n".join([f"stop before {call} {number}", *lines, *stops, ""])) != found for _, call, number, _, _ in arrivals]
        fates = self.fates(world, arrivals, made, left)
        if fates is None:
            self.differs(seed, f"is not what the rules say (calls made: {made})", whole, found)
            return
        self.met.update(f"{fate} {side}" for fate, (side, *_) in zip(fates, arrivals))
        self.met["stopped"] += found[0].split()[-1] != "0"
        self.next_run(seed, left, whole)

    def fates(self, world, arrivals, made, left):
        """What became of each arrival, if that explains what is left."""
        choices = [("listed", "later") if is_made else ("never",) for is_made in made]
        for fates in itertools.product(*choices):
            if named(expected(world, arrivals, fates, self.misread), world) == named(left, world):
                return fates
        return None

    def next_run(self, seed, left, whole):
        """A run over what is left, alone."""
        if fault(left):
            self.tally.passes()
            return
        found = self.ask(text_of(left) + "tries 1\n")
        again = read_world(left, found[next(k for k, line in enumerate(found) if line.startswith("far ")):])
        if found[0] != "settled ran 0" or named(outcome(left), left) != named(again, left):
            self.differs(seed, "the next run is not what the rules say", whole + text_of(left), found)
        else:
            self.tally.passes()


def self_test(asked):
    """Looks whether some trial shows each wrong reading."""
    tally = Tally()
    for misread in WRONG_READINGS:
        runs = Runs(asked.program, [], misread)
        for seed in range(asked.seed, asked.seed + 300):
            runs.trial(seed)
        tally.check(f"{misread.__name__}: {runs.tally.failed} of 300 trials differ", runs.tally.failed)
    tally.end()


def main():
    asked = random_trials.words_of(__doc__).parse_args()
    must_run(asked.program)
    if asked.self_test:
        self_test(asked)
    runs = Runs(asked.program, ["--tcp"] if asked.tcp else [])
    for seed in range(asked.seed, asked.seed + asked.count):
        runs.trial(seed)
    print(", ".join(f"{kind} {number}" for kind, number in sorted(runs.met.items())))
    print(f"{asked.count} trials from seed {asked.seed}, {runs.tally.failed} differ")
    runs.tally.end()


if __name__ == "__main__":
    main()
