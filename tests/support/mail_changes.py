"""Random changes of both sides between runs, as mail programs make them, which a judge and the model learn."""
import random

from oracle.run_model import CELLS, Options
from tests.support.imap_side import IMAP_NAMES

LETTERS = "".join(sorted(IMAP_NAMES))
SYNC_WORDS = {
    "Full": CELLS,
    "Pull": frozenset(cell for cell in CELLS if cell.startswith("Pull")),
    "Push": frozenset(cell for cell in CELLS if cell.startswith("Push")),
    "New Flags": frozenset(cell for cell in CELLS if not cell.endswith("Gone")),
    "PullNew PushFlags PushGone": frozenset({"PullNew", "PushFlags", "PushGone"}),
    "None": frozenset(),
}
EXPUNGE_WORDS = {"None": frozenset(), "Far": frozenset({"far"}), "Near": frozenset({"near"}), "Both": frozenset({"far", "near"})}


def random_options(rng):
    """Words for the configuration, and what they mean. Most runs do everything."""
    sync = "Full" if rng.random() < 0.7 else rng.choice(list(SYNC_WORDS))
    expunge = rng.choice(list(EXPUNGE_WORDS))
    return (sync, expunge), Options(SYNC_WORDS[sync], EXPUNGE_WORDS[expunge])


def random_flags(rng):
    return frozenset(letter for letter in LETTERS if rng.random() < (0.1 if letter == "T" else 0.3))


class Changes:
    """Makes messages with names of their own, and changes a place. Where `is_usual` is set the lines of each message end as its side has
    them: servers in use refuse others."""

    def __init__(self, place, judge, seed):
        self.place = place
        self.judge = judge
        self.rng = random.Random(seed)
        self.count = 0
        self.is_usual = False

    def message(self, side):
        """The name of a new message, and its bytes: mostly as stores have them, sometimes with odd line ends and mark lines."""
        self.count += 1
        name = f"{side}{self.count}"
        lines = [b"From: a@example.org", b"Message-ID: <%s@soak>" % name.encode()]
        if self.rng.random() < 0.1:
            lines.insert(self.rng.randrange(3), b"x-tuid: somebody else's")
        lines += [b""] + [self.rng.randbytes(20).hex().encode() for _ in range(self.rng.choice([0, 3, 60]))]
        if self.rng.random() < 0.1:
            lines += [b"X-TUID: of the text", "caf\u00e9".encode(), b"\xe9"]
        usual = b"\r\n" if side == "far" else b"\n"
        ends = [usual if self.is_usual or self.rng.random() < 0.97 else self.rng.choice([b"\n", b"\r\n", b"\r\r\n"]) for _ in lines]
        data = b"".join(line + end for line, end in zip(lines, ends))
        return name, data if self.is_usual or self.rng.random() < 0.9 else data + b"no line end"

    def new(self, side):
        """A message that is to be added: name, bytes, flags, and whether it can be copied."""
        name, data = self.message(side)
        flags, is_fit = random_flags(self.rng), True
        if side == "near" and self.rng.random() < 0.03:
            data, is_fit = data + b"\0", False
        self.judge.know(side, name, data)
        return name, data, flags, is_fit

    def add(self, side, target):
        """Adds a message; gives side, name, flags and whether it can be copied."""
        name, data, flags, is_fit = self.new(side)
        target.add(name, data, flags)
        return side, name, flags, is_fit

    def arrivals(self, most):
        """Adds some messages on both sides."""
        arrived = []
        with self.place.far_side() as far:
            arrived += [self.add("far", far) for _ in range(self.rng.randrange(most))]
        with self.place.near_side() as near:
            arrived += [self.add("near", near) for _ in range(self.rng.randrange(most))]
        return arrived

    def change(self, target, messages, most):
        """Flags some messages anew and removes some, of UIDs and flags by name; so many are left at most."""
        for name, (uid, flags) in sorted(messages.items()):
            if uid is None:
                continue
            if self.rng.random() < (0.1 if len(messages) <= most else 0.5):
                target.remove(uid)
                del messages[name]
            elif self.rng.random() < 0.3:
                new = flags ^ frozenset(letter for letter in LETTERS if self.rng.random() < 0.25)
                target.set_flags(uid, flags, new)
                messages[name] = (uid, new)
