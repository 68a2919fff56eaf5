"""What a state and a journal say of near messages: which of them were at the server too."""
import hashlib
import os
import re
from dataclasses import dataclass, field

from mailboxes.near_folders import META, STATE, Refused

JOURNAL = STATE + ".journal"
NAME = re.compile(r"(?P<base>[^:.][^:]*?)(,U=(?P<uid>[1-9][0-9]*))?(?P<end>:2,(?P<letters>[A-Za-z]*))?")
ENTRY = re.compile(r"e (\d+) (\d+) (\S+)")
NEW = re.compile(r"s new (pull|push) (\d+) \S+ \S+")
DONE = re.compile(r"d (\d+) (\d+)")


@dataclass
class Message:
    """A near message: its file, the parts of its name, and its UID, if it has one."""
    path: str
    base: str
    uid: int
    end: str
    letters: frozenset

    def digest(self):
        """What the message is, apart from ends of lines and from what its store adds: the lines X-TUID of its header."""
        with open(self.path, "rb") as file:
            text = re.sub(rb"\r+\n", b"\n", file.read())
        head, gap, body = text.partition(b"\n\n")
        lines = [line for line in (head + gap[:1]).splitlines(True) if not line.lower().startswith(b"x-tuid:")]
        return hashlib.sha256(b"".join(lines) + gap[1:] + body).digest()


@dataclass
class Book:
    """Near UIDs of messages that are on both sides, with the far UIDs; the flags that a run recorded of them; and the near UIDs of those that
    are gone far."""
    far: dict = field(default_factory=dict)
    flags: dict = field(default_factory=dict)
    half: set = field(default_factory=set)


def messages_in(folder):
    """The messages of a near mailbox."""
    found = []
    for part in ("cur", "new"):
        place = os.path.join(folder, part)
        for name in sorted(os.listdir(place)) if os.path.isdir(place) else []:
            parts = NAME.fullmatch(name)
            if parts and os.path.isfile(os.path.join(place, name)):
                letters = frozenset(parts["letters"] or "")
                found.append(Message(os.path.join(place, name), parts["base"], int(parts["uid"] or 0), parts["end"] or "", letters))
    return found


def whole_lines(path):
    """The lines of a file that have their end."""
    try:
        with open(path, encoding="ascii", errors="surrogateescape") as file:
            return file.read().split("\n")[:-1]
    except FileNotFoundError:
        return []


def book_of(folder):
    """What state and journal of a near mailbox say, as far as they can be read: an entry of the state, and each copy that the journal logs
    beside the state, is a message that is on both sides."""
    book = Book()
    for line in whole_lines(os.path.join(folder, STATE)):
        if entry := ENTRY.fullmatch(line):
            far, near = int(entry[1]), int(entry[2])
            if far and near:
                book.far[near], book.flags[near] = far, frozenset(entry[3].replace("-", ""))
            elif near:
                book.half.add(near)
    lines = whole_lines(os.path.join(folder, JOURNAL))
    if "go" in lines:
        at = lines.index("go")
        steps = [line for line in lines[:at] if line.startswith("s ")]
        for line in lines[at:]:
            if (done := DONE.fullmatch(line)) and 0 < int(done[1]) <= len(steps) and (step := NEW.fullmatch(steps[int(done[1]) - 1])):
                source, copy = int(step[2]), int(done[2])
                far, near = (source, copy) if step[1] == "pull" else (copy, source)
                book.far.setdefault(near, far)
    return book


def check_validity(folder):
    """Refuses a folder whose UIDs are not those of its state: nothing could be said of its messages."""
    meta = whole_lines(os.path.join(folder, META))
    near = [line.split(" ")[1] for line in whole_lines(os.path.join(folder, STATE)) if re.fullmatch(r"near \d+ \d+", line)]
    if meta and near and meta[0].isdigit() and meta[0] != near[0]:
        raise Refused(f"{folder}/{META} is not the one of {folder}/{STATE}: its first line has to be {near[0]} (mbsync(1), How to recover, "
                      "validity changed near)")
