"""What a run leaves, by docs/RULES.md, said once more without UIDs: for the scripts that judge real runs.

Each message has a name of its own in its header (`Message-ID: <NAME@soak>`), which its copy has too. So a world is known by names:
which messages stand on each side, with which flags, and which pairs the last run recorded."""
import re
from dataclasses import dataclass, field

from oracle.mail import OTHER, TYPES, WAYS

CELLS = frozenset(way + kind for way in WAYS for kind in TYPES)
# For a side whose messages are copied, the direction away from it.
FROM = {"far": "Pull", "near": "Push"}
NAME = re.compile(rb"^Message-ID: <(\w+)@soak>\r*$", re.MULTILINE)


def name_of(data):
    found = NAME.search(data)
    return found[1].decode() if found else None


@dataclass
class Options:
    """What a run may do."""
    cells: frozenset = CELLS
    expunge: frozenset = frozenset()


@dataclass
class Pair:
    """What is recorded of two messages: which of them have not vanished, and the flags that both had."""
    sides: frozenset
    flags: frozenset


@dataclass
class World:
    """Both sides (flags by name), the pairs by name, and by side the names that are not new any more."""
    far: dict = field(default_factory=dict)
    near: dict = field(default_factory=dict)
    pairs: dict = field(default_factory=dict)
    old: dict = field(default_factory=lambda: {"far": frozenset(), "near": frozenset()})
    unfit: frozenset = frozenset()

    def side(self, name):
        return self.far if name == "far" else self.near

    def copy(self):
        pairs = {name: Pair(pair.sides, pair.flags) for name, pair in self.pairs.items()}
        return World(dict(self.far), dict(self.near), pairs, dict(self.old), self.unfit)

    def trimmed(self):
        """The same without what no later run asks: whether a message that is paired or gone was new."""
        world = self.copy()
        world.old = {side: frozenset(name for name in names if name in self.side(side) and name not in self.pairs)
                     for side, names in self.old.items()}
        world.unfit = frozenset(name for name in self.unfit if name in self.near)
        return world


def news(world, side, options):
    """The names of the messages of this side that are new."""
    if FROM[side] + "New" not in options.cells:
        return []
    return [name for name, flags in world.side(side).items()
            if name not in world.old[side] and name not in world.pairs and name not in world.unfit
            and not ("T" in flags and side in options.expunge)]


def flags_after(options, far, near, recorded):
    """The flags of a pair after a run: on the far side, on the near one, and recorded."""
    after = {"far": set(), "near": set(), "recorded": set()}
    for letter in {*far, *near, *recorded}:
        there = {"far": letter in far, "near": letter in near, "recorded": letter in recorded}
        changed = {side: there[side] != there["recorded"] for side in ("far", "near")}
        new = dict(there)
        if "PullFlags" in options.cells and changed["far"] and not changed["near"]:
            new["near"] = there["far"]
        if "PushFlags" in options.cells and changed["near"] and not changed["far"]:
            new["far"] = there["near"]
        if "PullFlags" in options.cells and changed["far"]:
            new["recorded"] = there["far"]
        elif "PushFlags" in options.cells and changed["near"]:
            new["recorded"] = there["near"]
        for place, is_there in new.items():
            if is_there:
                after[place].add(letter)
    return [frozenset(after[place]) for place in ("far", "near", "recorded")]


def run(before, options):
    """The world that one whole run leaves."""
    world = before.copy()
    for name, pair in world.pairs.items():
        if len(pair.sides) < 2:
            continue
        if name in before.far and name in before.near:
            world.far[name], world.near[name], pair.flags = flags_after(options, before.far[name], before.near[name], pair.flags)
            continue
        for side in ("far", "near"):
            other = OTHER[side]
            if name not in before.side(side) and name in before.side(other) and FROM[side] + "Gone" in options.cells:
                world.side(other)[name] = before.side(other)[name] | {"T"}
                pair.sides = frozenset({other})
    copies = [(side, name) for side in ("far", "near") for name in news(before, side, options)]
    for side in options.expunge:
        for name in [name for name, flags in world.side(side).items() if "T" in flags]:
            del world.side(side)[name]
    world.pairs = {name: pair for name, pair in world.pairs.items() if any(name in world.side(side) for side in pair.sides)}
    for side, name in copies:
        world.side(OTHER[side])[name] = before.side(side)[name]
        world.pairs[name] = Pair(frozenset({"far", "near"}), before.side(side)[name])
    for side in ("far", "near"):
        if FROM[side] + "New" in options.cells:
            world.old[side] = world.old[side] | frozenset(before.side(side))
    return world


@dataclass
class Course:
    """One way in which things may have gone so far: the world once all plans are carried out, whether one is still pending, and how
    many runs have been recorded."""
    world: World
    is_pending: bool = False
    runs: int = 0


def after_kill(courses, options):
    """What may stand behind an attempt that was killed: it did not come to a plan, has left one, or has finished."""
    ways = []
    for course in courses:
        ways.append(course)
        if course.is_pending:
            ways.append(Course(course.world, False, course.runs + 1))
        else:
            ways.append(Course(run(course.world, options), True, course.runs))
            ways.append(Course(run(course.world, options), False, course.runs + 1))
    return different(ways)


def different(courses):
    """Each of these once."""
    found = []
    for course in courses:
        if course not in found:
            found.append(course)
    return found


def after_run(courses, options):
    """What may stand behind an attempt that ended well."""
    return different(Course(course.world if course.is_pending else run(course.world, options), False, course.runs + 1) for course in courses)


def with_arrivals(courses, arrived):
    """The same, once others have added messages: side, name, flags, and whether it can be copied."""
    ways = []
    for course in courses:
        world = course.world.copy()
        for side, name, flags, is_fit in arrived:
            world.side(side)[name] = flags
            world.unfit = world.unfit if is_fit else world.unfit | {name}
        ways.append(Course(world, course.is_pending, course.runs))
    return ways
