"""Rounds of changes, killed runs and a last run, over a place that has both sides and a synchroniser."""
import random
from dataclasses import dataclass, field
from functools import partial

from oracle.judge import Judge, verdict
from oracle.run_model import Course, World, after_kill, after_run, different, with_arrivals
from tests.support.mail_changes import Changes, random_options

MOST_MESSAGES = 30
MOST_NEW = 8
MOST_ARRIVALS = 4


@dataclass
class Told:
    """What a round has come to: how its killed runs stood, and what is wrong."""
    kills: list = field(default_factory=list)
    wrong: list = field(default_factory=list)


class Soak:
    """A place has `far_side()` and `near_side()` (to be used in a `with`; `messages`, `add`, `set_flags`, `remove`), `state()` (the text
    of the state, or none), and `attempt(words, share, deliver)`: a run that is killed behind this share of the usual time, or not for
    none, and during which `deliver` is called, if there is one. It gives a word for how the run stood, `ended`, or `failed`."""

    def __init__(self, place, seed):
        self.place = place
        self.rng = random.Random(seed)
        self.judge = Judge()
        self.changes = Changes(place, self.judge, seed + 1)
        # Where the state is no text of ours, several courses may agree with what is found.
        self.courses = [Course(World())]

    def sides(self):
        """What stands on both sides by name, and what is wrong with it in itself."""
        with self.place.far_side() as far:
            on_far = far.messages()
        with self.place.near_side() as near:
            on_near = near.messages()
        return self.judge.read(on_far, on_near)

    def change(self):
        """Changes both sides, and the worlds of the model with them."""
        sides, _ = self.sides()
        for side, opened in (("far", self.place.far_side()), ("near", self.place.near_side())):
            with opened as target:
                self.changes.change(target, sides[side], MOST_MESSAGES)
            for course in self.courses:
                course.world.side(side).clear()
                course.world.side(side).update((name, flags) for name, (_, flags) in sides[side].items())
        self.courses = with_arrivals(self.courses, self.changes.arrivals(MOST_NEW))
        return sides

    def attempt(self, words, options, courses, share):
        """A run, sometimes with a message that is delivered meanwhile; gives how it stood, and what may stand behind it."""
        delivered, deliver = [], None
        if self.rng.random() < 0.3:
            name, data, flags, is_fit = self.changes.new("near")
            delivered = [("near", name, flags, is_fit)]
            deliver = partial(self.place.near_side().add, name, data, flags)
        how = self.place.attempt(words, share, deliver)
        behind = after_run if how == "ended" else after_kill
        ways = behind(with_arrivals(courses, delivered), options)
        return how, different(ways + with_arrivals(behind(courses, options), delivered)) if delivered else ways

    def killed_runs(self, words, options, courses, told):
        """One run that is killed, sometimes more, sometimes with messages that come in between."""
        while not told.kills or self.rng.random() < 0.25:
            how, courses = self.attempt(words, options, courses, self.rng.random() * 1.1)
            told.kills.append(how)
            if how == "failed":
                return courses
            if self.rng.random() < 0.5:
                courses = with_arrivals(courses, self.changes.arrivals(MOST_ARRIVALS))
        return courses

    def round(self):
        """Changes, killed runs, one run more; and what is wrong behind it."""
        before = self.change()
        words, options = random_options(self.rng)
        told, run_before, how = Told(), run_number(self.place.state()), "failed"
        courses = self.killed_runs(words, options, self.courses, told)
        if "failed" not in told.kills:
            how, courses = self.attempt(words, options, courses, None)
        if "failed" in (how, *told.kills):
            told.wrong.append(f"{words}: the run failed: {self.place.told()}")
            return told
        sides, told.wrong = self.sides()
        told.wrong += self.judge.wrong_order(sides, before)
        state = self.place.state()
        runs = None if run_number(state) is None else run_number(state) - (run_before or 0)
        courses = [course for course in courses if runs in (None, course.runs)]
        if not courses:
            told.wrong.append(f"{words}: the state counts {runs} runs, which cannot be")
            return told
        agreeing, wrong = verdict(self.judge, sides, courses, state)
        told.wrong += [f"{words}: {line}" for line in wrong]
        self.courses = different(Course(course.world.trimmed()) for course in agreeing)
        return told


def run_number(state):
    """The number of the last run by a state text of ours; none where there is no such text."""
    lines = (state or "").split("\n")
    return int(lines[1].split()[1]) if lines[0] == "mbsync state 2" else None
