#!/usr/bin/env python3
"""Stops runs of the built mbtrial at each of their calls, and looks whether the next attempt brings them to the same end.

For each world of WORLDS, each call that can be named and each k that the unbroken run makes, a stop comes before and after the k-th
call, with two attempts; and each append to the shelf is cut after each of its bytes. Each pair of stops, of which the second may be one
that the resumed attempt alone comes to, is tried with three attempts; there an append to the shelf is also stopped after its third
byte. Then random worlds are each stopped at one of their calls, drawn at random. Each run has to be settled with as many stops as are
named, and what it leaves has to be alike to what the unbroken run leaves: the same but for UIDs that the run gave, and the twelve
characters of the marks. --self-test needs no program: wrong ends have to be found, and other UIDs and marks accepted."""
import pathlib
import random
import subprocess
import sys

sys.path.insert(0, str(pathlib.Path(__file__).resolve().parents[1]))
from oracle.alike import WorldText, unlike
from oracle.mail import SIX
from tests.support.places import built, must_run, parser_of
from tests.support.tally import Tally

PLAIN = "sync Full\nexpunge None\n"
CALLS = ("folder.names", "folder.read", "folder.write_tmp", "folder.rename", "folder.remove", "folder.replace_meta",
         "shelf.append", "shelf.read", "shelf.replace", "shelf.remove",
         "CAPABILITY", "LOGIN", "ENABLE", "SELECT", "FETCH", "STORE", "EXPUNGE", "APPEND")
WORLDS = {
    "first pull": PLAIN + 'far 1 3\nf 1 S "a\\0d\\0a"\nf 2 - "b\\0d\\0a"\nnear 1 1\nstate 0 0 0 0 0\nend\n',
    "flags on both sides": PLAIN + 'far 1 6\nf 5 S "a\\0d\\0a"\nnear 1 8\nn 7 F "a\\0a"\nstate 3 1 1 5 7\ne 5 7 -\nend\n',
    "gone": PLAIN + 'far 1 6\nnear 1 8\nn 7 S "a\\0a"\nstate 3 1 1 5 7\ne 5 7 S\nend\n',
    "gone and expunged": 'sync Full\nexpunge Near\nfar 1 6\nnear 1 8\nn 7 S "a\\0a"\nstate 3 1 1 5 7\ne 5 7 S\nend\n',
    "expunge alone": 'sync None\nexpunge Near\nfar 1 6\nf 5 - "a\\0d\\0a"\nnear 1 8\nn 7 T "a\\0a"\nstate 3 1 1 5 7\ne 5 7 -\nend\n',
    "first push": PLAIN + 'far 1 1\nnear 1 2\nn 1 - "a\\0a"\nstate 0 0 0 0 0\nend\n',
    "one message pulled": PLAIN + 'far 1 2\nf 1 - "a\\0d\\0a"\nnear 1 1\nstate 0 0 0 0 0\nend\n',
    "a waiting file": PLAIN + 'far 1 9\nf 8 S "x\\0d\\0a"\nnear 1 4\nn 3 S "x\\0a"\nw - "y\\0a"\nstate 2 1 1 0 3\ne 8 3 S\nend\n',
    "far expunge alone": 'sync Full\nexpunge Far\nfar 1 2\nf 1 T "a\\0d\\0a"\nnear 1 1\nstate 0 0 0 0 0\nend\n',
}
# No run of a world here makes so many calls of one name.
MOST_CALLS = 100


class Runs(Tally):
    """Runs trials, and counts which pass."""

    def __init__(self, program, arguments):
        super().__init__()
        self.command = [program, *arguments]

    def told(self, text, tries, stops=()):
        """The lines that a run prints."""
        trial = text + f"tries {tries}\n" + "".join(stop + "\n" for stop in stops)
        return subprocess.run(self.command, input=trial, capture_output=True, text=True, check=False, timeout=60).stdout.split("\n")

    def run(self, text, tries, stops=()):
        """The words of the first line that is printed, and the world that is left."""
        told = self.told(text, tries, stops)
        start = next((k for k, line in enumerate(told) if line.startswith("far ")), len(told))
        return told[0].split(), WorldText(told[start:])

    def unbroken(self, name, text):
        """The world that an unbroken run leaves, if it is carried out as it has to be."""
        words, ended = self.run(text, 1)
        if words == ["settled", "ran", "0"]:
            return ended
        self.fails(f"{name}: {' '.join(words)}\n{text}")
        return None

    def comes_to(self, ended, name, text, *stops):
        """Looks whether a run with these stops comes to this end, and gives whether all of them were met. If not, nothing is counted, but
        the run has to be settled all the same."""
        words, found = self.run(text, len(stops) + 1, stops)
        what = f"{name}, {', '.join(stops)}"
        if words[:1] != ["settled"]:
            self.fails(f"{what}: {' '.join(words)}")
            return True
        met, wrong = int(words[2]), unlike(WorldText(text.split("\n")), ended, found)
        if met > len(stops):
            wrong = f"{met} stops"
        if wrong is not None:
            self.fails(f"{what}: {wrong}")
        elif met == len(stops):
            self.passes()
        return met == len(stops)

    def each_stop(self, name, text, ended):
        """Each stop of one world before and after a call: a list of those that were met."""
        met = []
        for call in CALLS:
            for k in range(1, MOST_CALLS):
                stops = [stop for stop in (f"stop before {call} {k}", f"stop after {call} {k}") if self.comes_to(ended, name, text, stop)]
                met += stops
                if not stops:
                    break
        return met

    def each_beginning(self, name, text, ended):
        """Each append to the shelf, cut after each of its bytes but the last: up to the first cut after which the same is printed as
        after the whole call."""
        for k in range(1, MOST_CALLS):
            whole = self.told(text, 2, [f"stop after shelf.append {k}"])
            if whole[0].split()[2:] != ["1"]:
                return
            for count in range(1000):
                stop = f"stop part shelf.append {k} {count}"
                if self.told(text, 2, [stop]) == whole:
                    break
                self.comes_to(ended, name, text, stop)

    def each_pair(self, name, text, ended, singles):
        """Each pair of stops, of which the second may be one that the resumed attempt alone comes to. `singles` are the stops that the
        unbroken run comes to."""
        appends = [stop for stop in singles if stop.startswith("stop before shelf.append ")]
        firsts = singles + ["stop part shelf.append " + stop.rsplit(" ", 1)[1] + " 3" for stop in appends]
        for place, first in enumerate(firsts):
            for second in firsts[place + 1:]:
                self.comes_to(ended, name, text, first, second)
            for call in CALLS:
                reached = sum(stop.startswith(f"stop before {call} ") for stop in singles)
                self.each_later(name, text, ended, first, call, reached)

    def each_later(self, name, text, ended, first, call, reached):
        """Each stop at a call of this name after those that the unbroken run comes to."""
        for k in range(reached + 1, MOST_CALLS):
            seconds = [f"stop before {call} {k}", f"stop after {call} {k}"] + [f"stop part {call} {k} 3"] * (call == "shelf.append")
            if not any([self.comes_to(ended, name, text, first, second) for second in seconds]):
                return


def random_world(rng):
    """A world with some pairs, messages of one side alone, and waiting files, under any options."""
    far, near, entries = [], [], []
    uids = {"far": 1, "near": 1}

    def flags():
        return "".join(f for f in SIX if rng.random() < 0.25) or "-"

    def uid(side):
        uids[side] += rng.randrange(1, 3)
        return uids[side] - 1

    for _ in range(rng.randrange(5)):
        f, n = uid("far"), uid("near")
        entries.append((f, n, flags()))
        if rng.random() < 0.85:
            far.append((f, flags(), "p%d" % f))
        if rng.random() < 0.85:
            near.append((n, flags(), "p%d" % f))
    highest = uids["far"] - 1, uids["near"] - 1
    far += [(uid("far"), flags(), "new") for _ in range(rng.randrange(3))]
    near += [(uid("near"), flags(), "own") for _ in range(rng.randrange(3))]
    lines = [rng.choice(["sync Full", "sync Pull", "sync Push", "sync New Gone", "sync None"]),
             "expunge " + rng.choice(["None", "Far", "Near", "Both"]), f"far 1 {uids['far']}"]
    lines += [f'f {u} {w} "{t}\\0d\\0a"' for u, w, t in far] + [f"near 1 {uids['near']}"]
    lines += [f'n {u} {w} "{t}\\0a"' for u, w, t in near] + [f'w {flags()} "w{k}\\0a"' for k in range(rng.randrange(2))]
    lines += [f"state 1 1 1 {highest[0]} {highest[1]}"] + [f"e {f} {n} {w}" for f, n, w in entries] + ["end", ""]
    return "\n".join(lines)


# What the first pull leaves, ways in which this would be wrong, and ways in which it would be as good.
ENDED = '''far 1 3
f 1 S "a\\0d\\0a"
f 2 - "b\\0d\\0a"
near 1 3
n 1 S "X-TUID: AQAAAAAAAAAC\\0aa\\0a"
n 2 - "X-TUID: AwAAAAAAAAAE\\0ab\\0a"
state 1 1 1 2 0
e 1 1 S
e 2 2 -
end
'''
SECOND = 'n 2 - "X-TUID: AwAAAAAAAAAE\\0ab\\0a"\n'
WRONG = {
    "a copy is missing": [(SECOND, "")],
    "a copy twice": [("near 1 3", "near 1 4"), (SECOND, SECOND + SECOND.replace("n 2", "n 3").replace("AwAAAAAAAAAE", "BQAAAAAAAAAG"))],
    "other flags": [("n 2 -", "n 2 S")],
    "other bytes": [("0ab", "0ac")],
    "a copy without its mark": [("X-TUID: AwAAAAAAAAAE\\0a", "")],
    "a mark twice": [("AwAAAAAAAAAE", "AQAAAAAAAAAC")],
    "copies exchanged": [("n 1 S", "n 9 S"), ("n 2 -", "n 1 -"), ("n 9 S", "n 2 S")],
    "a far message is missing": [('f 2 - "b\\0d\\0a"\n', "")],
    "a far message was changed": [('f 2 - "b', 'f 2 - "X-TUID: AwAAAAAAAAAE\\0d\\0ab')],
    "an entry is missing": [("e 2 2 -\n", "")],
    "an entry with other flags": [("e 2 2 -", "e 2 2 S")],
    "an entry with another UID": [("e 2 2 -", "e 2 1 -")],
    "the next UID is that of a copy": [("near 1 3", "near 1 2")],
    "another UIDVALIDITY": [("near 1 3", "near 2 3")],
    "a run twice": [("state 1", "state 2")],
    "another highest UID": [("2 0\ne", "1 0\ne")],
    "a waiting file": [("state 1", 'w - "x"\nstate 1')],
}
AS_GOOD = {
    "another mark": [("AwAAAAAAAAAE", "BQAAAAAAAAAG")],
    "another UID": [("near 1 3", "near 1 4"), ("n 2 -", "n 3 -"), ("e 2 2", "e 2 3")],
    "UIDs set aside": [("near 1 3", "near 1 9")],
}


def self_test():
    """Tries whether each wrong end is found, and each good one accepted."""
    opening, ended, tally = WorldText(WORLDS["first pull"].split("\n")), WorldText(ENDED.split("\n")), Tally()
    for ends, is_wrong in ((WRONG, True), (AS_GOOD, False)):
        for name, edits in ends.items():
            text = ENDED
            for old, new in edits:
                assert text.count(old) == 1, (name, old)
                text = text.replace(old, new)
            told = unlike(opening, ended, WorldText(text.split("\n")))
            if (told is not None) == is_wrong:
                tally.passes()
            else:
                tally.fails(f"{name}: {told}")
    print(f"{len(WRONG)} wrong ends, {len(AS_GOOD)} good ones, {tally.failed} slipped")
    tally.end()


def random_stop(runs, rng, name, text, ended):
    """Stops the run of a random world at one of its calls, and gives whether there is one."""
    stops = [f"stop {moment} {call} {k}" for moment in ("before", "after") for call in CALLS for k in (1, 2, 3)]
    rng.shuffle(stops)
    return any(runs.comes_to(ended, name, text, stop) for stop in stops)


def named_worlds(runs):
    """Each stop of the named worlds, each cut append to the shelf, and each pair of stops."""
    for name, text in WORLDS.items():
        ended = runs.unbroken(name, text)
        if ended is None:
            continue
        before, singles = runs.passed, runs.each_stop(name, text, ended)
        runs.each_beginning(name, text, ended)
        alone = runs.passed
        runs.each_pair(name, text, ended, singles)
        print(f"{name}: {len(singles)} stops at a call, {alone - before - len(singles)} cut appends, {runs.passed - alone} pairs of stops")
    print(f"{runs.passed} runs of {len(WORLDS)} named worlds as they have to be")


def random_worlds(runs, number, seed):
    """A stop each of so many random worlds."""
    rng, met = random.Random(seed), 0
    for k in range(number):
        text = random_world(rng)
        ended = runs.unbroken(f"random world {k}", text)
        met += ended is not None and random_stop(runs, rng, f"random world {k}", text, ended)
    print(f"{met} of {number} random worlds met their stop")
    if met < number:
        runs.fails("a random world that met no stop")


def main():
    words = parser_of(__doc__)
    words.add_argument("program", nargs="?", default=built("mbtrial"), help="the built mbtrial, if it is left out")
    words.add_argument("--tcp", action="store_true", help="handed on to the program: the far mailbox is reached over a loopback connection")
    words.add_argument("--random", type=int, default=1000, metavar="N", help="how many random worlds (1000)")
    words.add_argument("--seed", type=int, default=1)
    words.add_argument("--self-test", action="store_true")
    words = words.parse_args()
    if words.self_test:
        self_test()
    must_run(words.program)
    runs = Runs(words.program, ["--tcp"] if words.tcp else [])
    named_worlds(runs)
    random_worlds(runs, words.random, words.seed)
    runs.end()


if __name__ == "__main__":
    main()
