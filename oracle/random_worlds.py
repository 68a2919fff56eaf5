#!/usr/bin/env python3
"""Compares mbplan on random small worlds with the rules of docs/RULES.md, read here once more and in another language.

It ends at the first world whose output differs, and prints it."""
import os
import pathlib
import random
import subprocess
import sys

sys.path.insert(0, str(pathlib.Path(__file__).resolve().parents[1]))
from oracle.mail import LETTERS
from oracle.plan_model import CELLS, letters_of, plan, random_keywords, text_of
from tests.support.places import TOP, parser_of
from tests.support.tally import Tally, Wrong


def random_letters(rng, letters):
    return "".join(c for c in letters if rng.random() < 0.3)


def random_data(rng, bytes_):
    start = b"x-tuid:" if rng.random() < 0.1 else b""
    return start + bytes(rng.choice(bytes_) for _ in range(rng.randrange(8)))


def random_messages(rng, letters, bytes_):
    uids = sorted(rng.sample(range(1, 12), rng.randrange(7)))
    return [(uid, random_letters(rng, letters), random_data(rng, bytes_)) for uid in uids]


def random_entries(rng, letters):
    """Entries, some of which have letters that no keyword has any more."""
    count = rng.randrange(8)
    entries = []
    for far, near in zip(rng.sample(range(1, 14), count), rng.sample(range(1, 14), count)):
        vanished = rng.random()
        entries.append((0 if vanished < 0.15 else far, 0 if vanished > 0.85 else near, random_letters(rng, rng.choice((letters, letters, LETTERS)))))
    return sorted(entries)


def random_world(rng):
    plain = b"\n\r\raa:x"
    keywords = random_keywords(rng)
    letters = letters_of(keywords)
    world = {
        "keywords": keywords,
        "cells": {cell for cell in CELLS if rng.random() < 0.75},
        "expunge": tuple(side for side in ("far", "near") if rng.random() < 0.4),
        "far": random_messages(rng, letters, plain), "near": random_messages(rng, letters, plain + b"\0"),
        "waiting": [(random_letters(rng, letters), random_data(rng, plain + b"\0")) for _ in range(rng.choice([0, 0, 1, 2]))],
        "far_validity": 1, "near_validity": 2, "run": rng.choice([0, 1, 5]),
        "far_recorded": 0, "near_recorded": 0, "max_pulled": 0, "max_pushed": 0, "entries": [],
    }
    for side in ("far", "near"):
        world[side + "_next"] = max([m[0] for m in world[side]], default=0) + 1 + rng.randrange(3)
    if world["run"]:
        world.update(far_recorded=rng.choice([1] * 20 + [3]), near_recorded=rng.choice([2] * 20 + [3]),
                     max_pulled=rng.randrange(12), max_pushed=rng.randrange(12), entries=random_entries(rng, letters))
    return world


def compare(tally, program, count, rng):
    """Plans random worlds, up to the first whose plan differs."""
    for _ in range(count):
        world = random_world(rng)
        status, lines, fault = plan(world)
        wanted = (status, "".join(f"{line}\n" for line in lines), f"mbplan: {fault}\n" if fault else "")
        ran = subprocess.run([program], input=text_of(world), capture_output=True, text=True, check=False)
        found = (ran.returncode, ran.stdout, ran.stderr)
        if found != wanted:
            raise Wrong(f"{text_of(world)}\nwanted {wanted!r}\nfound {found!r}")
        tally.passes()
    print(f"{count} worlds, all alike")


def main():
    words = parser_of(__doc__)
    words.add_argument("program", nargs="?", default=os.path.join(TOP, "bin", "mbplan"), help="bin/mbplan, if it is left out")
    words.add_argument("count", nargs="?", type=int, default=1000, help="how many worlds (1000)")
    words.add_argument("start", nargs="?", type=int, default=1, help="of the random numbers (1)")
    words = words.parse_args()
    tally = Tally()
    with tally.until_wrong():
        compare(tally, words.program, words.count, random.Random(words.start))
    tally.end()


if __name__ == "__main__":
    main()
