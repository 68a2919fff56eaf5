"""Judges what a run has left: nothing lost, duplicated or resurrected, each flag as the rules say, and each byte where it belongs."""
import re

from oracle.mail import content
from oracle.run_model import name_of

MARK_LINE = rb"X-TUID: [A-Za-z0-9_-]{12}"


class Judge:
    """Knows each message that was ever put on a side by a mail program, and the UIDs that were seen."""

    def __init__(self):
        self.originals = {}
        self.uids = {"far": {}, "near": {}}

    def know(self, side, name, data):
        self.originals[name] = (side, data)

    def read(self, far, near):
        """Both sides by name, from lists of UID, flags and bytes, with what is wrong in themselves."""
        sides, wrong = {}, []
        for side, messages in (("far", far), ("near", near)):
            sides[side] = {}
            for uid, flags, data in messages:
                name = name_of(data)
                if name not in self.originals:
                    wrong.append(f"{side}: UID {uid} is no message of ours: {data[:80]}")
                    continue
                if name in sides[side]:
                    wrong.append(f"{side}: {name} is doubled, UIDs {sides[side][name][0]} and {uid}")
                wrong += self.wrong_bytes(side, name, data) + self.wrong_uid(side, name, uid)
                sides[side][name] = (uid, flags)
        return sides, wrong

    def wrong_bytes(self, side, name, data):
        origin, original = self.originals[name]
        if origin == side:
            return [] if data == original else [f"{side}: the bytes of {name} have changed"]
        line_end = b"\n" if side == "near" else b"\r\n"
        mark = re.match(MARK_LINE + line_end, data)
        if mark is None or data[mark.end():] != content(original).replace(b"\n", line_end):
            return [f"{side}: the copy {name} is not one of its source: {data[:80]}"]
        return []

    def wrong_uid(self, side, name, uid):
        """A UID names one message for ever, and a message keeps its UID."""
        if uid is None:
            return []
        known = self.uids[side]
        wrong = [f"{side}: UID {uid} was {known[uid]} and is now {name}"] if known.get(uid, name) != name else []
        wrong += [f"{side}: {name} was UID {old} and is now {uid}" for old, of in known.items() if of == name and old != uid]
        known[uid] = name
        return wrong

    def wrong_order(self, sides, before):
        """Copies that were not there before stand in the order of their sources."""
        wrong = []
        for side, source in (("far", "near"), ("near", "far")):
            copies = sorted((uid, name) for name, (uid, _) in sides[side].items()
                            if name not in before[side] and self.originals[name][0] == source and name in sides[source])
            sources = [sides[source][name][0] for _, name in copies]
            if sources != sorted(sources):
                wrong.append(f"{side}: copies stand in another order than their sources: {sources}")
        return wrong

    def pairs_of_state(self, text):
        """The pairs of a state text by name, or none if the text is none of ours."""
        if text is None or not text.startswith("mbsync state 2\n"):
            return None
        pairs = {}
        for far, near, flags in re.findall(r"^e (\d+) (\d+) (\S+)$", text, re.MULTILINE):
            uids = {"far": int(far), "near": int(near)}
            # A copy that was expunged before anyone looked has a UID that is not known.
            names = {self.uids[side].get(uid) for side, uid in uids.items() if uid} - {None}
            sides = frozenset(side for side, uid in uids.items() if uid)
            pairs[" and ".join(sorted(names))] = (sides, frozenset(flags.replace("-", "")))
        return pairs


def differences(sides, world):
    """How two sides that were found differ from a world."""
    wrong = []
    for side in ("far", "near"):
        found, wanted = {name: flags for name, (_, flags) in sides[side].items()}, world.side(side)
        wrong += [f"{side}: {name} is lost" for name in wanted if name not in found]
        wrong += [f"{side}: {name} should not be there" for name in found if name not in wanted]
        wrong += [f"{side}: {name} has the flags {letters(found[name])} in place of {letters(flags)}"
                  for name, flags in wanted.items() if name in found and found[name] != flags]
    return wrong


def letters(flags):
    return "".join(sorted(flags)) or "-"


def verdict(judge, sides, courses, state=None):
    """The courses that agree with what is found, and what is wrong if there is none, by the course that comes nearest."""
    agreeing = [course for course in courses if not differences(sides, course.world)]
    if not agreeing:
        nearest = min(courses, key=lambda course: len(differences(sides, course.world)))
        return [], differences(sides, nearest.world)
    recorded = judge.pairs_of_state(state)
    with_pairs = [course for course in agreeing if recorded in (None, pairs_of(course))]
    if with_pairs:
        return with_pairs, []
    return [], [f"the state records {show(recorded)} in place of {show(pairs_of(agreeing[0]))}"]


def pairs_of(course):
    return {name: (pair.sides, pair.flags) for name, pair in course.world.pairs.items()}


def show(pairs):
    return ", ".join(f"{name} ({'+'.join(sorted(sides))}) {letters(flags)}" for name, (sides, flags) in sorted(pairs.items()))
