#!/usr/bin/env python3
"""Runs mbsync where people change mailboxes between an interrupted run and the next one, and during a run: nothing that a person has kept
may be removed.

First come scenes, each with what has to be printed, and what both sides have to hold then, written by hand: pending plans that are stale,
odd names, mailboxes under odd names, each dead end with the way out that is printed, and what is bounded. With names only the scenes that
have one of them in theirs are played, and no rounds.

Then come rounds at random (tests/support/stale_rounds.py): a person removes, marks, undeletes and puts back messages, near and at the
server, gives files odd tails, and moves them, between killed runs and during runs, under all settings of Expunge. A judge that knows
nothing of plans and states looks over the whole history: what was kept has to be on both sides, once, and what was removed has to stay
away."""
import os
import pathlib
import sys
import time

sys.path.insert(0, str(pathlib.Path(__file__).resolve().parents[1]))
from tests.scenes import bounds, during_runs, judged, mailbox_names, odd_tails, pending_plans, ways_out
from tests.support.places import MBSYNC, must_run, parser_of
from tests.support.scene import Scene
from tests.support.stale_rounds import rounds
from tests.support.tally import Tally

SCENES = [*judged.SCENES, *pending_plans.SCENES, *during_runs.SCENES, *odd_tails.SCENES, *mailbox_names.SCENES, *ways_out.SCENES,
          *bounds.SCENES]


def main():
    words = parser_of(__doc__)
    words.add_argument("--program", default=MBSYNC, help="the built mbsync, if it is left out")
    words.add_argument("--rounds", type=int, default=300)
    words.add_argument("--seed", type=int, default=int(time.time()), help="the time, if it is left out")
    words.add_argument("names", nargs="*", metavar="NAME")
    words = words.parse_args()
    Scene.program = os.path.abspath(words.program)
    must_run(Scene.program)
    tally = Tally()
    if not words.names:
        rounds(tally, words.seed, words.rounds)
    tally.play(SCENES, words.names)


if __name__ == "__main__":
    main()
