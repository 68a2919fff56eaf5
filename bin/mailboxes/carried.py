"""Near mailboxes that are carried over: their folders, states, and what a person has to know of them."""
import os
from dataclasses import dataclass, field

from mailboxes.box_names import chosen_by_isync, encoded, plain, written
from mailboxes.isync_states import (NEW, default_folder, folders_of, has_synchronised, is_own, is_used, new_folder, state_in, state_of,
                                    states_behind, states_of_pairs)
from mailboxes.near_folders import STATE, Refused, expanded, own_names


@dataclass
class Box:
    """A near mailbox that isync has synchronised: its names here, far and near, where it is, where mbsync has it, and isync's state."""
    channel: str
    far: str
    near: str
    folder: str
    new: str
    state: str


@dataclass
class Carried:
    """What is made, and what a person has to know of it: lines that are left out, what is not carried over, near mailboxes that would be
    without a state, and IMAP stores of which it matters how their server calls mailboxes."""
    text: list = field(default_factory=list)
    notes: list = field(default_factory=list)
    failures: list = field(default_factory=list)
    boxes: list = field(default_factory=list)
    stateless: list = field(default_factory=list)
    to_ask: set = field(default_factory=set)

    def add(self, *lines):
        self.text += lines

    def states(self):
        """The new states by the box; why others are not carried over is noted."""
        states = []
        for box in sorted(self.boxes, key=lambda box: box.folder):
            try:
                states.append((box, state_of(box.state)))
            except (Refused, OSError) as why:
                if not is_started_over(box.folder, box.state):
                    self.stateless.append(f"{box.folder}: the state {box.state} is not carried over: {why}")
        return states


class Boxes:
    """Looks for the near mailboxes of a channel that isync has synchronised, and their states."""

    def __init__(self, carried, section, defaults, store, names):
        self.carried, self.section, self.store, self.names = carried, section, store, names
        self.own, self.default = section.word("syncstate"), defaults.word("syncstate")
        self.patterns = section.patterns()
        self.folders = folders_of(store, names)

    def find(self, far, near):
        """Notes those of a channel between these stores and mailboxes; gives the names that the patterns have to choose, and those that
        they must not."""
        if not self.patterns:
            self.ask(far, [far[1], near[1]])
            self.note(plain(near[1], self.names), self.states(far, near), plain(far[1], self.names))
            return [], []
        states = self.states(far, near)
        chosen = [name for name in self.folders if chosen_by_isync(self.patterns, name)]
        self.ask(far, chosen)
        wanted = [name for name in chosen if self.note(name, states)]
        return wanted, [name for name in self.folders if name not in chosen]

    def ask(self, far, boxes):
        """Only INBOX has one name everywhere."""
        if set(boxes) - {"INBOX"}:
            self.carried.to_ask.add(far[0])

    def states(self, far, near):
        """The states by isync's name of the near mailbox."""
        where = self.own or self.default
        if where == "*":
            return {name: [state_in(folder) for folder in {*folders, self.new_folder(name)}] for name, folders in self.folders.items()}
        if self.own:
            return states_behind(expanded(where), self.names)
        far_box = None if self.patterns else plain(far[1], self.names)
        return states_of_pairs(default_folder(where) + f":{far[0]}:", far_box, near[0], self.names)

    def new_folder(self, name):
        return new_folder(self.store, name, self.names, bool(self.patterns))

    def names_here(self, name, far):
        """The far and the near name of a mailbox here. By patterns both are one."""
        return (written(name, self.names),) * 2 if self.patterns else (written(far, self.names), encoded(name))

    def note(self, name, states, far=None):
        """Notes a mailbox; gives whether isync has synchronised it."""
        new, folders = self.new_folder(name), self.folders.get(name, [])
        if len(folders) == 2 and new in folders and not set(own_names(folders[0])) & set(own_names(folders[1])) - {STATE + NEW}:
            # It was being moved.
            folders = [folder for folder in folders if folder != new]
        paths = [path for path in states.get(name, []) if os.path.isfile(path)]
        for found, what in ((folders, "have one mailbox; move the one that isync does not synchronise elsewhere"),
                            (paths, "are states of one mailbox; move the older one elsewhere")):
            if len(found) > 1:
                self.carried.stateless.append(f"{' and '.join(found)} {what}")
                return False
        if not folders:
            return False
        if paths:
            self.carried.boxes.append(Box(self.section.name, *self.names_here(name, far), folders[0], new, paths[0]))
            return True
        if has_synchronised(folders[0]) and not is_started_over(folders[0]):
            self.carried.stateless.append(f"{folders[0]}: isync's state was not found, and without one each message is copied again; start "
                                         "over (mbsync(1))")
        return False


def own_state(folder):
    """The text of mbsync's state of a mailbox, or none."""
    path = os.path.join(folder, STATE)
    if not is_own(path):
        return None
    with open(path, encoding="ascii", errors="surrogateescape") as file:
        return file.read()


def is_started_over(folder, state=None):
    """Whether mbsync has synchronised a mailbox, and isync, whose state this is, has not done so since."""
    text = own_state(folder)
    if text is None or not is_used(text):
        return False
    own = os.path.join(folder, STATE)
    return state in (None, own) or os.stat(own).st_mtime_ns > os.stat(state).st_mtime_ns


def is_in_place(box, text):
    """Whether mbsync's state of a mailbox is there. One with which mbsync has synchronised since isync's last run is never replaced."""
    found = own_state(box.folder)
    if found is not None and is_used(found) and not is_started_over(box.folder, box.state):
        raise Refused(f"{box.folder}/{STATE} is of a run of mbsync's, and isync has run since: start over with this mailbox (mbsync(1))")
    return found is not None and (is_used(found) or found == text)


def told_moves(carried):
    """A line for each folder that gets another place."""
    return [f"{box.folder}: mbsync has this mailbox in {box.new}; --switch moves it" for box in carried.boxes if box.folder != box.new]


def new_state(box):
    return os.path.join(box.folder, STATE + NEW)
