"""A synchroniser in memory that is right, and some that are wrong, each in one way: the judge has to tell them apart."""
import random

from oracle.mail import OTHER, content
from oracle.run_model import Options, Pair, World, name_of, run
from tests.support.mail_changes import EXPUNGE_WORDS, SYNC_WORDS


class Killed(Exception):
    """The run ends here."""


class MemorySide:
    """A mailbox, also to be used in a `with`."""

    def __init__(self):
        self.next = 1
        self.by_uid = {}

    def __enter__(self):
        return self

    def __exit__(self, *_):
        pass

    def messages(self):
        return [(uid, flags, data) for uid, (flags, data) in self.by_uid.items()]

    def add(self, _name, data, flags):
        self.by_uid[self.next] = (flags, data)
        self.next += 1

    def set_flags(self, uid, _old, new):
        self.by_uid[uid] = (new, self.by_uid[uid][1])

    def remove(self, uid):
        del self.by_uid[uid]


class Right:
    """Logs its plan and each step, seeks each copy by its mark where a run was stopped, and replaces its state at the end."""

    def __init__(self, seed=0):
        self.sides = {"far": MemorySide(), "near": MemorySide()}
        self.recorded = World()
        self.journal = None
        self.rng = random.Random(seed)
        self.left = None
        self.used = [40]

    def far_side(self):
        return self.sides["far"]

    def near_side(self):
        return self.sides["near"]

    def state(self):
        return None

    def told(self):
        return ""

    def tick(self):
        """A call of the outside, before which the run may be killed."""
        self.used[-1] += 1
        if self.left is not None:
            self.left -= 1
            if self.left < 0:
                raise Killed

    def attempt(self, words, share, deliver):
        if deliver:
            deliver()
        self.left = None if share is None else int(share * max(self.used[-10:]))
        self.used.append(0)
        options = Options(SYNC_WORDS[words[0]], EXPUNGE_WORDS[words[1]])
        try:
            self.synchronise(options)
            return "ended"
        except Killed:
            return "before the plan" if self.journal is None else "with a plan"

    def synchronise(self, options):
        is_resumed = self.journal is not None
        if not is_resumed:
            self.plan(options)
        steps, _, after = self.journal
        while self.journal[1] < len(steps):
            self.step(steps[self.journal[1]], is_resumed)
        self.tick()
        self.recorded = after
        self.tick()
        self.journal = None

    def before(self):
        """What stands on both sides, with what is recorded."""
        world = self.recorded.copy()
        for name, side in self.sides.items():
            world.side(name).clear()
            world.side(name).update((name_of(data), flags) for _, flags, data in side.messages())
        world.unfit = frozenset(name_of(data) for _, _, data in self.sides["near"].messages() if b"\0" in data)
        return world

    def plan(self, options):
        self.tick()
        before = self.before()
        after = run(before, options)
        steps = [("copy", side, name, self.mark()) for side in ("near", "far") for name in after.side(side) if name not in before.side(side)]
        steps += [("flags", side, name, flags) for side in ("near", "far") for name, flags in after.side(side).items()
                  if name in before.side(side) and before.side(side)[name] != flags]
        steps += [("remove", side, name, None) for side in ("near", "far") for name in before.side(side) if name not in after.side(side)]
        self.tick()
        self.journal = (steps, 0, after)

    def mark(self):
        return "".join(self.rng.choices("ABCDEFGHIJKLMNOPQRSTUVWXYZabcdef", k=12)).encode()

    def step(self, step, is_resumed):
        self.tick()
        self.perform(step, is_resumed)
        self.tick()
        self.log()

    def log(self):
        steps, done, after = self.journal
        self.journal = (steps, done + 1, after)

    def perform(self, step, is_resumed):
        kind, side, name, what = step
        target = self.sides[side]
        there = {name_of(data): (uid, flags) for uid, flags, data in target.messages()}
        if kind == "copy" and not (is_resumed and self.is_there(target, what)):
            flags, data = next((flags, data) for _, flags, data in self.sides[OTHER[side]].messages() if name_of(data) == name)
            line_end = b"\n" if side == "near" else b"\r\n"
            target.add(name, b"X-TUID: " + what + line_end + content(data).replace(b"\n", line_end), flags)
        elif kind == "flags":
            target.set_flags(*there[name], what)
        elif kind == "remove" and name in there:
            target.remove(there[name][0])

    def is_there(self, target, mark):
        return any(data.startswith(b"X-TUID: " + mark) for _, _, data in target.messages())


class Doubles(Right):
    """Does not look whether a copy was made already."""

    def is_there(self, target, mark):
        return False


class LogsTooEarly(Right):
    """Logs a step before it is done, and so loses it."""

    def step(self, step, is_resumed):
        self.tick()
        self.log()
        self.tick()
        self.perform(step, is_resumed)


class Revives(Right):
    """Forgets what it knew of a message that is gone on one side, so that the other one is new again."""

    def before(self):
        world = super().before()
        for name in [name for name in world.pairs if name not in world.far or name not in world.near]:
            del world.pairs[name]
            world.old = {side: names - {name} for side, names in world.old.items()}
        return world


class FarWins(Right):
    """Takes the far flags where both have changed."""

    def before(self):
        world = super().before()
        for name, pair in world.pairs.items():
            if name in world.far and name in world.near and world.far[name] != pair.flags:
                world.pairs[name] = Pair(pair.sides, world.near[name])
        return world


class RecordsTooEarly(Right):
    """Replaces its state before the steps, and plans anew behind a kill."""

    def plan(self, options):
        super().plan(options)
        self.recorded = self.journal[2]

    def synchronise(self, options):
        self.journal = None
        super().synchronise(options)


class ChangesBytes(Right):
    """Copies a message with its CRs."""

    def perform(self, step, is_resumed):
        super().perform(step, is_resumed)
        newest = self.sides["near"].next - 1
        if step[:2] == ("copy", "near") and newest in self.sides["near"].by_uid:
            flags, data = self.sides["near"].by_uid[newest]
            self.sides["near"].by_uid[newest] = (flags, data.replace(b"\n", b"\r\n"))


WRONG = [Doubles, LogsTooEarly, Revives, FarWins, RecordsTooEarly, ChangesBytes]
