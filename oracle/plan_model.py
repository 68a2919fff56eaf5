"""The plan of a world by docs/RULES.md, read here once more and in another language, and how a world is written.

A world is a table: `cells` and `expunge` (what the run may do); `keywords` (a name for some letters from a to z); of `far` and `near`
the messages (UID, letters, bytes), `_validity` and `_next`; `waiting` files (letters, bytes); and the state: `run`, `far_recorded` and
`near_recorded` (validities), `max_pulled`, `max_pushed`, and `entries` (far UID, near UID, letters)."""
from string import ascii_lowercase

from oracle.mail import LETTERS, SIX, TYPES, WAYS, escaped, is_fit

NAMES = ("$Label1", "$Label2", "Junk", "NonJunk", "$MDNSent", "to-do", "~")
CELLS = [(way, kind) for way in WAYS for kind in TYPES]
EXPUNGE = {(): "None", ("far",): "Far", ("near",): "Near", ("far", "near"): "Both"}


# ---- keywords

def random_keywords(rng):
    """A name for none to three letters."""
    letters = sorted(rng.sample(ascii_lowercase, rng.choice((0, 0, 1, 2, 3))))
    return dict(zip(letters, rng.sample(NAMES, len(letters))))


def letters_of(keywords):
    """The letters that a message of a world with these keywords may have."""
    return SIX + "".join(sorted(keywords))


# ---- the rules

def changed_bits(source, target, recorded):
    """Letters that the target gets and loses: changed on the source alone."""
    changed = [c for c in LETTERS if (c in source) != (c in recorded) and (c in target) == (c in recorded)]
    return [c for c in changed if c in source], [c for c in changed if c not in source]


def recorded_after(cells, far, near, recorded):
    after = ""
    for c in LETTERS:
        value = c in recorded
        if ("Pull", "Flags") in cells and (c in far) != (c in recorded):
            value = c in far
        elif ("Push", "Flags") in cells and (c in near) != (c in recorded):
            value = c in near
        after += c if value else ""
    return after


def flags_line(way, far, near, plus, minus):
    parts = ["flags %s %d %d" % (way.lower(), far, near)]
    parts += ["+" + "".join(plus)] if plus else []
    parts += ["-" + "".join(minus)] if minus else []
    return " ".join(parts)


def news(world, way, side, messages, paired, highest):
    """The lines of new messages and of those that only lack fitness."""
    new, unfit = [], []
    if (way, "New") in world["cells"]:
        for uid, (letters, data) in sorted(messages.items()):
            if uid > highest and uid not in paired and not ("T" in letters and side in world["expunge"]):
                if is_fit(side, data):
                    new.append("new %s %d" % (way.lower(), uid))
                else:
                    unfit.append("unfit %s %d" % (side, uid))
    return new, unfit


def plan(world):
    """Status, lines, and what is reported."""
    far = {uid: (letters, data) for uid, letters, data in world["far"]}
    near = {uid: (letters, data) for uid, letters, data in world["near"]}
    for index, (letters, data) in enumerate(world["waiting"]):
        near[world["near_next"] + index] = (letters, data)
    for side in ("far", "near"):
        if world["run"] > 0 and world[side + "_recorded"] != world[side + "_validity"]:
            return 1, [], "validity changed " + side
    entries, cells = sorted(world["entries"]), world["cells"]
    full = [entry for entry in entries if entry[0] and entry[1]]
    listed = [entry for entry in full if entry[0] in far and entry[1] in near]
    far_after = {uid: set(message[0]) for uid, message in far.items()}
    near_after = {uid: set(message[0]) for uid, message in near.items()}

    pulled = news(world, "Pull", "far", far, {e[0] for e in entries}, world["max_pulled"])
    pushed = news(world, "Push", "near", near, {e[1] for e in entries}, world["max_pushed"])
    lines = pulled[0] + pushed[0]
    for f, n, _ in sorted(full, key=lambda e: e[1]):
        if ("Pull", "Gone") in cells and f not in far and n in near:
            lines.append("gone pull %d %d" % (f, n))
            near_after[n].add("T")
    for f, n, _ in sorted(full, key=lambda e: e[0]):
        if ("Push", "Gone") in cells and n not in near and f in far:
            lines.append("gone push %d %d" % (f, n))
            far_after[f].add("T")
    for way in ("Pull", "Push"):
        for f, n, recorded in listed:
            source, target, after = (far[f][0], near[n][0], near_after[n])
            if way == "Push":
                source, target, after = (near[n][0], far[f][0], far_after[f])
            plus, minus = changed_bits(source, target, recorded)
            if (way, "Flags") in cells and (plus or minus):
                lines.append(flags_line(way, f, n, plus, minus))
                after.update(plus)
                after.difference_update(minus)
    gone = {"far": set(), "near": set()}
    for side, after in (("far", far_after), ("near", near_after)):
        if side in world["expunge"]:
            gone[side] = {uid for uid, letters in after.items() if "T" in letters}
        lines += ["expunge %s %d" % (side, uid) for uid in sorted(gone[side])]
    for f, n, recorded in listed:
        after = recorded_after(cells, far[f][0], near[n][0], recorded)
        if after != recorded:
            lines.append("record %d %d %s" % (f, n, after or "-"))
    for f, n, _ in entries:
        if (f not in far or f in gone["far"]) and (n not in near or n in gone["near"]):
            lines.append("drop %d %d" % (f, n))
    return 0, lines + pulled[1] + pushed[1], None


# ---- texts

def world_after_options(world):
    """The lines of a world from its line `far` on."""
    lines = []
    for side, letter in (("far", "f"), ("near", "n")):
        lines.append("%s %d %d" % (side, world[side + "_validity"], world[side + "_next"]))
        lines += ['%s %d %s "%s"' % (letter, uid, letters or "-", escaped(data)) for uid, letters, data in world[side]]
    lines += ['w %s "%s"' % (letters or "-", escaped(data)) for letters, data in world["waiting"]]
    lines.append("state %d %d %d %d %d" % (world["run"], world["far_recorded"], world["near_recorded"],
                                           world["max_pulled"], world["max_pushed"]))
    lines += ["e %d %d %s" % (far, near, letters or "-") for far, near, letters in world["entries"]]
    return "\n".join(lines + ["end", ""])


def text_of(world):
    """The world, its Sync words being the `words` that it has, or else one for each cell."""
    words = world.get("words") or [way + kind for way, kind in CELLS if (way, kind) in world["cells"]] or ["None"]
    keywords = "".join("keyword %s %s\n" % keyword for keyword in sorted(world["keywords"].items()))
    return "sync %s\nexpunge %s\n%s" % (" ".join(words), EXPUNGE[world["expunge"]], keywords) + world_after_options(world)
