"""What a run leaves by docs/RULES.md, and what mbtrial prints of it by docs/FORMATS.md, read once more.

Worlds are the tables of `plan_model`. An end is asked of each message and each entry by itself; the steps come from `plan_model`."""
import base64

from oracle.mail import LETTERS, TYPES, WAYS, content, is_fit
from oracle.plan_model import CELLS, changed_bits, plan, recorded_after, world_after_options

GREATEST_NEXT = 4294967295
GREATEST_RUN = 18446744073709551615
CHANGED, REFUSED, BAD_STATE, OTHER_FAULT = 3, 2, 4, 6


def cells_of(words):
    """The cells that Sync words choose, or none where they are refused."""
    known = {word.lower(): word for word in ("None", "Full", *WAYS, *TYPES, *(way + kind for way, kind in CELLS))}
    if not words or any(word.lower() not in known for word in words):
        return None
    words = [known[word.lower()] for word in words]
    if len(set(words)) < len(words) or ("None" in words and len(words) > 1):
        return None
    if words == ["None"]:
        return set()
    if not any(word == way + kind for way, kind in CELLS for word in words):
        if "Full" in words and any(word in TYPES for word in words):
            return None
        ways = [way for way in WAYS if way in words] or WAYS
        types = [kind for kind in TYPES if kind in words] or TYPES
        return {(way, kind) for way in ways for kind in types}
    asserted = [cell for word in words for cell in CELLS if word in (cell[0], cell[1], cell[0] + cell[1], "Full")]
    return set(asserted) if len(set(asserted)) == len(asserted) else None


def mark(k):
    """The k-th mark of the generator whose k-th word is k."""
    return base64.urlsafe_b64encode((2 * k - 1).to_bytes(8, "little") + bytes([2 * k % 256]))


def copy_of(data, number, side):
    """The bytes of a copy on this side."""
    text = b"X-TUID: " + mark(number) + b"\n" + content(data)
    return text.replace(b"\n", b"\r\n") if side == "far" else text


def admitted(world):
    """The near messages, with the waiting files behind them."""
    return world["near"] + [(world["near_next"] + k, letters, data) for k, (letters, data) in enumerate(world["waiting"])]


def is_new(world, side, message):
    """Whether a listed message is to be copied to the other side."""
    uid, letters, data = message
    way, column, highest = ("Pull", 0, "max_pulled") if side == "far" else ("Push", 1, "max_pushed")
    return ((way, "New") in world["cells"] and uid > world[highest] and all(entry[column] != uid for entry in world["entries"])
            and is_fit(side, data) and not ("T" in letters and side in world["expunge"]))


class Ends:
    """What becomes of each message and each entry of a world."""

    def __init__(self, world):
        self.world, self.cells = world, world["cells"]
        self.near_messages = admitted(world)
        self.far = {uid: letters for uid, letters, _ in world["far"]}
        self.near = {uid: letters for uid, letters, _ in self.near_messages}

    def flags(self, side, uid):
        """The letters of a listed message behind the gone and flags propagations to its side."""
        ours, theirs, column, way = (self.far, self.near, 0, "Push") if side == "far" else (self.near, self.far, 1, "Pull")
        letters = ours[uid]
        for entry in self.world["entries"]:
            if entry[column] != uid or not all(entry[:2]):
                continue
            other = entry[1 - column]
            if other not in theirs:
                return "".join(c for c in LETTERS if c in letters or (c == "T" and (way, "Gone") in self.cells))
            if (way, "Flags") in self.cells:
                plus, minus = changed_bits(theirs[other], letters, entry[2])
                return "".join(c for c in LETTERS if c in plus or (c in letters and c not in minus))
        return letters

    def stays(self, side, uid):
        """Whether a UID is listed and is not expunged."""
        return uid in (self.far if side == "far" else self.near) and not (side in self.world["expunge"] and "T" in self.flags(side, uid))

    def messages(self, side):
        """The messages of this side that stay."""
        messages = self.world["far"] if side == "far" else self.near_messages
        return [(uid, self.flags(side, uid), data) for uid, _, data in messages if self.stays(side, uid)]

    def entry(self, far, near, recorded):
        """What becomes of an entry, nothing if it is dropped."""
        if not self.stays("far", far) and not self.stays("near", near):
            return None
        if not far or not near:
            return far, near, recorded
        if far in self.far and near in self.near:
            return far, near, recorded_after(self.cells, self.far[far], self.near[near], recorded)
        if far not in self.far and ("Pull", "Gone") in self.cells:
            return 0, near, recorded
        if near not in self.near and ("Push", "Gone") in self.cells:
            return far, 0, recorded
        return far, near, recorded

    def entries(self):
        return [after for after in (self.entry(*entry) for entry in self.world["entries"]) if after]

    def highest(self, way):
        """The recorded highest UID behind the run."""
        most, listed = (self.world["max_pulled"], self.far) if way == "Pull" else (self.world["max_pushed"], self.near)
        return max([most, *listed]) if (way, "New") in self.cells else most


def copies(world):
    """The new messages in order: side, message, UID of the copy, its bytes."""
    new = [(side, message) for side, messages in (("far", world["far"]), ("near", admitted(world)))
           for message in messages if is_new(world, side, message)]
    nexts = {"far": world["far_next"], "near": world["near_next"] + len(world["waiting"])}
    made = []
    for number, (side, message) in enumerate(new, 1):
        target = "near" if side == "far" else "far"
        made.append((side, message, nexts[target], copy_of(message[2], number, target)))
        nexts[target] += 1
    return made


def with_copies(world, made):
    """A world whose files have been admitted, with these copies."""
    world = dict(world, near=list(world["near"]), far=list(world["far"]))
    for side, (_, letters, _), uid, data in made:
        target = "near" if side == "far" else "far"
        world[target].append((uid, letters, data))
        world[target + "_next"] = uid + 1
    return world


def with_admitted(world):
    """A world behind the admission of its waiting files."""
    return dict(world, near=admitted(world), near_next=world["near_next"] + len(world["waiting"]), waiting=[])


def outcome(world):
    """The world that a run leaves, where each waiting file and each copy gets the next UID."""
    ends, made = Ends(world), copies(world)
    new = [(message[0], uid, message[1]) if side == "far" else (uid, message[0], message[1]) for side, message, uid, _ in made]
    after = with_admitted(world)
    after = with_copies(dict(after, far=ends.messages("far"), near=ends.messages("near")), made)
    return dict(after, run=world["run"] + 1, far_recorded=world["far_validity"], near_recorded=world["near_validity"],
                max_pulled=ends.highest("Pull"), max_pushed=ends.highest("Push"), entries=sorted(ends.entries() + new))


def fault(world):
    """The fault of a run over this world in which nothing stops, and what it leaves; or nothing."""
    if world["run"] == GREATEST_RUN:
        return BAD_STATE, world
    if plan(world)[0]:
        return CHANGED, world
    if world["near_next"] + len(world["waiting"]) > GREATEST_NEXT:
        return OTHER_FAULT, world
    made = copies(world)
    for place, (side, _, uid, _) in enumerate(made):
        if uid + 1 > GREATEST_NEXT:
            return (OTHER_FAULT if side == "far" else REFUSED), with_copies(with_admitted(world), made[:place])
    return None


def told(world):
    """Status and output of mbtrial for one attempt in which nothing stops, and the world that it leaves, none behind a fault."""
    wrong = fault(world)
    if wrong:
        return 1, f"fault {wrong[0]} 0\n" + world_after_options(wrong[1]), None
    uids = {f"new {'pull' if side == 'far' else 'push'} {message[0]}": uid for side, message, uid, _ in copies(world)}
    steps = [line for line in plan(world)[1] if line.split()[0] in ("new", "gone", "flags", "expunge")]
    lines = [f"{line} -> {uids[line]}" if line in uids else line for line in steps]
    after = outcome(world)
    return 0, "".join(line + "\n" for line in ["settled ran 0", *lines]) + world_after_options(after), after
