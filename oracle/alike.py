"""Whether what a run left is alike to what another one left: the same but for UIDs that the run gave, and the twelve characters of the
marks. Both are texts that mbtrial prints."""
import re

# The line of a mark, at the beginning of a text.
MARK = re.compile(r'^"X-TUID: [A-Za-z0-9_-]{12}')


class WorldText:
    """A world's lines: of each side its validity, next UID and messages; the state's numbers and entries; what waits."""

    def __init__(self, lines):
        self.sides, self.waiting, self.state, self.entries = {}, [], None, []
        for line in lines:
            word, _, rest = line.partition(" ")
            if word in ("far", "near"):
                self.sides[word] = tuple(map(int, rest.split()))
            elif word in ("f", "n"):
                uid, flags, text = rest.split(" ", 2)
                self.sides.setdefault(word, {})[int(uid)] = (flags, text)
            elif word == "w":
                self.waiting.append(rest)
            elif word == "state":
                self.state = tuple(map(int, rest.split()))
            elif word == "e":
                far, near, flags = rest.split()
                self.entries.append((int(far), int(near), flags))

    def messages(self, letter):
        return self.sides.get(letter, {})


def renamed(opening, ended, found, letter, side):
    """The map from the UIDs of the unbroken end to those that are found: itself on what the opening names, rising on the others."""
    next_uid = opening.sides[side][1]
    place = 0 if side == "far" else 1

    def given(world):
        named = {*world.messages(letter), *(entry[place] for entry in world.entries), world.state[3 + place]}
        return sorted(uid for uid in named if uid >= next_uid)

    theirs, ours = given(ended), given(found)
    return {**{uid: uid for uid in range(next_uid)}, **dict(zip(theirs, ours))} if len(theirs) == len(ours) else None


def copies_in(opening, world, letter, side):
    """The UIDs of the copies that a run made: it gave them, and of the near ones each has an entry with a far message of the opening. The
    others are files that waited."""
    given = {uid for uid in world.messages(letter) if uid >= opening.sides[side][1]}
    if side == "far":
        return given
    return given & {near for far, near, _ in world.entries if 0 < far < opening.sides["far"][1]}


def without_marks(opening, world, letter, side):
    """The messages of a side, the copies without their marks."""
    copies = copies_in(opening, world, letter, side)
    return {uid: (flags, MARK.sub('"X-TUID:', text, count=1) if uid in copies else text) for uid, (flags, text) in world.messages(letter).items()}


def unlike(opening, ended, found):
    """Why what is found is not alike to the unbroken end, or nothing."""
    maps, marks = {}, []
    for letter, side, most in (("f", "far", 3), ("n", "near", 4)):
        to = maps[side] = renamed(opening, ended, found, letter, side)
        if to is None:
            return f"{side}: another number of messages"
        bare = without_marks(opening, ended, letter, side)
        if {to[uid]: message for uid, message in bare.items()} != without_marks(opening, found, letter, side):
            return f"{side}: other messages"
        if found.sides[side][0] != ended.sides[side][0]:
            return f"{side}: another validity"
        named = [*found.messages(letter), *(entry[most - 3] for entry in found.entries), found.state[most]]
        if found.sides[side][1] <= max(named) or found.sides[side][1] < opening.sides[side][1]:
            return f"{side}: the next UID is too low"
        marks += [m for uid in copies_in(opening, found, letter, side) for m in MARK.findall(found.messages(letter)[uid][1])[:1]]
    if len(set(marks)) != len(marks):
        return "a mark twice"
    mapped = sorted((maps["far"][far], maps["near"][near], flags) for far, near, flags in ended.entries)
    if mapped != sorted(found.entries):
        return "other entries"
    if found.state[:3] != ended.state[:3] or found.waiting != ended.waiting:
        return "another state, or other waiting files"
    if [maps["far"].get(ended.state[3]), maps["near"].get(ended.state[4])] != list(found.state[3:5]):
        return "other highest UIDs"
    return None
