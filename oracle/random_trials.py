#!/usr/bin/env python3
"""Runs the built mbtrial on random worlds, and compares all that it prints with the rules of docs/RULES.md, read once more.

World k has the seed S + k, so that `--count 1 --seed S` gives one world again. Each has both mailboxes, entries of every kind, waiting
files, UID gaps, messages that are not fit, and any Sync and Expunge that begin a sound world. One attempt is made over it, in which
nothing stops. The line of status, the steps, both mailboxes and the state have to be what outcome_model.py says; it was written from the
rules, and has no step in common with the program. Then the world that is left is given to mbtrial again, and what that run does is
compared likewise. If mbplan is built, or --planner names it, its plan of either world has to be that of plan_model.py. Each world that
differs is printed with its seed. At the end it says how often each kind of step, fault and world was met; of 1000 worlds and more each
kind has to be met. With --self-test each of some rules is read wrongly in turn, which one of these worlds has to show."""
import os
import pathlib
import random
import subprocess
import sys
from collections import Counter
from unittest.mock import patch

sys.path.insert(0, str(pathlib.Path(__file__).resolve().parents[1]))
from oracle.mail import LETTERS, MOST, SIX
from oracle.outcome_model import GREATEST_NEXT, GREATEST_RUN, cells_of, told
from oracle.plan_model import CELLS, letters_of, plan, random_keywords, text_of
from oracle.wrong_readings import WRONG
from tests.support.places import built, must_run, parser_of
from tests.support.tally import Tally

WORDS = ("None", "Full", "Pull", "Push", "New", "Gone", "Flags", *(way + kind for way, kind in CELLS))
LINES = (b"Subject: x", b"X-TUID: AQAAAAAAAAAC", b"x-tuid:z", b"X-TUID", b"X-Tuid: ", b" folded", b"", b"", b"text \"q\\", b"\xff\xfe\x80",
         b"a\rb", b"\r", b"\t\x01\x7f")
ENDS = (b"\n", b"\n", b"\r\n", b"\r\n", b"\r\r\n")
KINDS = ("settled", "fault 2", "fault 3", "fault 4", "fault 6", "no step", "next has steps", "next has none", "unfit far", "unfit near",
         "waiting", "half entry", *(f"{word} {way}" for word in ("new", "gone", "flags") for way in ("pull", "push")),
         "expunge far", "expunge near", "record", "drop")


# ---- random worlds

def random_letters(rng, letters):
    return "".join(c for c in letters if rng.random() < 0.27)


def random_data(rng, side):
    """A message, seldom with a NUL on the near side."""
    data = b"".join(rng.choice(LINES) + rng.choice(ENDS) for _ in range(rng.randrange(6))) + rng.choice((b"", b"", b"end", b"x-tuid: e"))
    return data + b"\0" if side == "near" and rng.random() < 0.08 else data


def big_world(rng):
    """A new message about the greatest length that is fit, and a short one, on one side."""
    side, length = rng.choice(["far", "near"]), MOST + rng.randrange(-1, 3)
    head = b"Subject: big\r\n\r\n" if side == "far" else b"Subject: big\n\n" + b"\n" * rng.randrange(2)
    messages = {"far": [], "near": [], side: [(3, random_letters(rng, SIX), head + b"x" * (length - 16)), (4, "", b"short")]}
    return {"cells": set(CELLS), "keywords": {}, "words": ["Full"], "expunge": (), "run": 0, **messages, "waiting": [], "entries": [],
            "max_pulled": 0, "max_pushed": 0, **{f"{side}_{what}": number for side in ("far", "near")
                                                 for what, number in (("recorded", 0), ("validity", 1), ("next", 5))}}


def random_side(rng):
    """Some UIDs of one side in any order, of which the first are for entries, and how far all of them are moved up."""
    most, counts = (200, [60]) if rng.random() < 0.04 else (24, [0, 4, 6, 8, 10, 12])
    uids = rng.sample(range(1, most), rng.choice(counts))
    return uids, GREATEST_NEXT - most - rng.randrange(2) if rng.random() < 0.06 else 0


def random_entries(rng, letters, far, near):
    """Entries over the first UIDs of both sides: some have lost a side, and some have letters that no keyword has any more."""
    entries = []
    for f, n in zip(far, near):
        if rng.random() < 0.75:
            lost = rng.random()
            entries.append((0 if lost < 0.12 else f, 0 if lost > 0.88 else n, random_letters(rng, rng.choice((letters, letters, LETTERS)))))
    return sorted(entries)


def random_messages(rng, letters, side, uids, entries):
    """What is listed: most of the UIDs; those in entries may be gone."""
    named = {entry[0 if side == "far" else 1] for entry in entries}
    return [(uid, random_letters(rng, letters), random_data(rng, side)) for uid in sorted(uids) if uid not in named or rng.random() < 0.75]


def random_options(rng, number):
    """Every second world takes the next of the 64 sets of cells and the 4 of Expunge, the others have any Sync words."""
    if number % 2:
        cells = {cell for place, cell in enumerate(CELLS) if number // 2 >> place & 1}
        covered = number // 128 % 4
        return cells, None, tuple(side for place, side in enumerate(("far", "near")) if covered >> place & 1)
    cells = None
    while cells is None:
        words = [rng.choice((str, str.lower, str.upper))(word) for word in rng.sample(WORDS, rng.choice([1, 1, 2, 3]))]
        cells = cells_of(words)
    return cells, words, tuple(side for side in ("far", "near") if rng.random() < 0.4)


def random_world(seed):
    rng = random.Random(seed)
    if seed % 200 == 0:
        return big_world(rng)
    cells, words, expunge = random_options(rng, seed)
    world = {"cells": cells, "words": words, "expunge": expunge, "far_recorded": 0, "near_recorded": 0, "entries": [],
             "run": rng.choice([0, 1, 1, 5] if rng.random() < 0.96 else [GREATEST_RUN - 1, GREATEST_RUN]), "keywords": random_keywords(rng)}
    letters = letters_of(world["keywords"])
    (far, far_up), (near, near_up) = random_side(rng), random_side(rng)
    far, near = [uid + far_up for uid in far], [uid + near_up for uid in near]
    if world["run"]:
        world["entries"] = random_entries(rng, letters, far, near)
    for side, uids, column, highest in (("far", far, 0, "max_pulled"), ("near", near, 1, "max_pushed")):
        world[side] = random_messages(rng, letters, side, uids, world["entries"])
        named = [entry[column] for entry in world["entries"]]
        world[highest] = rng.choice([0, max([*named, 0]), max([*uids, 0]), rng.choice([*uids, 1])]) if world["run"] else 0
        world[side + "_next"] = min(max([*uids, *named, world[highest], 0]) + 1 + rng.choice([0, 0, 1, 5]), GREATEST_NEXT)
        world[side + "_validity"] = rng.choice([1, 7, GREATEST_NEXT])
        if world["run"]:
            world[side + "_recorded"] = world[side + "_validity"] if rng.random() < 0.97 else 12
    world["waiting"] = [(random_letters(rng, letters), random_data(rng, "near")) for _ in range(rng.choice([0, 0, 1, 2, 3]))]
    return world


# ---- runs

def told_by_planner(world):
    """Status and output of mbplan, and what it prints on standard error. It refuses a waiting file for which no UID is left."""
    left = GREATEST_NEXT - world["near_next"]
    if left < len(world["waiting"]):
        line = len(world["keywords"]) + len(world["far"]) + len(world["near"]) + left + 5
        return 2, "", f"mbplan: world line {line}\n"
    status, lines, fault = plan(world)
    return status, "".join(line + "\n" for line in lines), f"mbplan: {fault}\n" if fault else ""


def kinds_of(world, output, lines):
    """What this world and its run show."""
    kinds = set()
    for line in lines:
        words = line.split()
        kinds.add(words[0] if words[0] in ("record", "drop") else " ".join(words[:2]))
    first = output.split("\n", 1)[0].split()
    is_settled = first[0] == "settled"
    kinds.add("settled" if is_settled else f"fault {first[1]}")
    shown = {"no step": is_settled and not lines, "waiting": world["waiting"], "half entry": any(0 in entry[:2] for entry in world["entries"])}
    return kinds | {kind for kind, is_shown in shown.items() if is_shown}


class Runs:
    """Gives worlds to the programs, and keeps what was met."""

    def __init__(self, program, planner, arguments):
        self.program, self.planner, self.arguments = program, planner, arguments
        self.met, self.tally = Counter(), Tally()

    def is_same(self, what, seed, text, wanted, found):
        """Counts an output that was compared, and gives whether it is as it has to be."""
        if found == wanted:
            self.tally.passes()
        else:
            self.tally.fails(f"seed {seed}, {what}: differs\n{text[:4000]}wanted {wanted!r:.4000}\nfound  {found!r:.4000}\n")
        return found == wanted

    def ask(self, command, text):
        ran = subprocess.run(command, input=text.encode(), capture_output=True, check=False, timeout=300)
        return ran.returncode, ran.stdout.decode(), ran.stderr.decode()

    def compare(self, what, seed, world):
        """Whether a run over this world is as the rules say, and what it leaves."""
        status, output, after = told(world)
        text = text_of(world) + "tries 1\n"
        found = self.ask([self.program, *self.arguments], text)
        if not self.is_same(what, seed, text, (status, output, ""), found):
            return None
        self.met.update(kinds_of(world, output, plan(world)[1] if after else []))
        if self.planner:
            wanted, found = told_by_planner(world), self.ask([self.planner], text_of(world))
            if not self.is_same(what + ", plan", seed, text_of(world), wanted, found):
                return None
        return after

    def world(self, seed):
        """A world, and the world that its run leaves."""
        world = random_world(seed)
        after = self.compare("first run", seed, world)
        if after:
            has_steps = any(line.split()[0] in ("new", "gone", "flags", "expunge") for line in plan(after)[1])
            self.met["next has steps" if has_steps else "next has none"] += 1
            self.compare("next run", seed, after)


def self_test(program, arguments, seeds):
    """Looks whether a world shows each wrong reading."""
    tally = Tally()
    for name, (place, word, wrong) in WRONG.items():
        with patch.object(place, word, wrong):
            seed = next((seed for seed in seeds if not is_as_told(program, arguments, random_world(seed))), None)
        print(f"no seed tells: {name}" if seed is None else f"seed {seed} tells: {name}", flush=True)
        if seed is None:
            tally.fails(name)
        else:
            tally.passes()
    tally.end()


def is_as_told(program, arguments, world):
    """Whether a run over this world is as the model says."""
    status, output, _ = told(world)
    ran = subprocess.run([program, *arguments], input=(text_of(world) + "tries 1\n").encode(), capture_output=True, check=False, timeout=300)
    return (ran.returncode, ran.stdout.decode()) == (status, output)


def words_of(text):
    """The parser of a script that runs mbtrial on worlds, each from a seed of its own."""
    words = parser_of(text)
    words.add_argument("program", nargs="?", default=built("mbtrial"), help="the built mbtrial, if it is left out")
    words.add_argument("--count", type=int, default=2000, metavar="N", help="how many worlds (2000)")
    words.add_argument("--seed", type=int, default=1, metavar="S")
    words.add_argument("--tcp", action="store_true", help="handed on to the program: the far mailbox is reached over a loopback connection")
    words.add_argument("--self-test", action="store_true")
    return words


def main():
    words = words_of(__doc__)
    words.add_argument("--planner", metavar="PROGRAM", default=built("mbplan") if os.access(built("mbplan"), os.X_OK) else None,
                       help="the built mbplan, if it is left out and there")
    asked = words.parse_args()
    must_run(asked.program)
    if asked.self_test:
        self_test(asked.program, ["--tcp"] if asked.tcp else [], range(asked.seed, asked.seed + asked.count))
    runs = Runs(asked.program, asked.planner, ["--tcp"] if asked.tcp else [])
    for seed in range(asked.seed, asked.seed + asked.count):
        runs.world(seed)
    print(", ".join(f"{kind} {runs.met[kind]}" for kind in KINDS))
    if asked.planner:
        print("plans were compared too")
    else:
        runs.tally.skip("the plans", "mbplan is not built")
    print(f"{asked.count} worlds from seed {asked.seed}, {runs.tally.passed + runs.tally.failed} outputs compared, {runs.tally.failed} differ")
    if asked.count >= 1000:
        missing = [kind for kind in KINDS if not runs.met[kind]]
        runs.tally.check("each kind was met", not missing, f"never met: {', '.join(missing)}")
    runs.tally.end()


if __name__ == "__main__":
    main()
