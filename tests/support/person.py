"""A person who removes, keeps and moves messages at random, near and at the server, with what has to come of each message."""
import os
import re
import time
from dataclasses import dataclass, field

from tests.support.maildir_side import NAME
from tests.support.promises import NOTHING, kept_far, kept_near, moment_of

MESSAGE = re.compile(rb"^Message-ID: <(\w+)@stale>\r?$", re.MULTILINE)
# Where a command comes so soon after a message was kept near, the guard may have looked before that: it looks once a second.
SOON = 2.0
# Tails that a name gets by mistake; what is there under them is no message, and has not gone.
ODD_TAILS = (":2,SF", ":2,S,", ":1,S", ":2S", ":", ":2,S~", ":2,S.bak", ":3,S")


@dataclass
class Message:
    """A message that stood on both sides: its name, its UIDs, on which side it has to stay without a mark (`None`: nothing is promised),
    and on which side a person has marked it as deleted."""
    name: str
    uids: dict
    must: dict = field(default_factory=lambda: {"far": True, "near": True})
    own: set = field(default_factory=set)
    away: str = ""
    odd: str = ""
    kept_at: float = 0.0


def name_of(data):
    found = MESSAGE.search(data)
    return found[1].decode() if found else None


class Person:
    """Acts over a scene. `log` has what was done, in order, for whoever looks into a round that went wrong."""

    def __init__(self, scene, rng):
        self.scene, self.rng, self.log = scene, rng, []
        self.messages, self.count, self.covered = {}, 0, None
        # The bytes of each message that was made, by its name.
        self.made = {}
        self.place = {"far": set(), "near": set()}

    # ---- what stands on both sides

    def far(self):
        """UID and letters of each far message by name."""
        return {name_of(data): (uid, letters) for uid, (letters, data) in self.scene.inbox().messages.items()}

    def near_files(self):
        """Each near file, odd ones too: its path, and the parts of its name, if it is one of Maildir."""
        found = []
        for part in ("new", "cur"):
            folder = self.scene.path("inbox/" + part)
            for name in sorted(os.listdir(folder)):
                found.append((os.path.join(folder, name), NAME.match(name)))
        return found

    def path_of(self, message):
        """The path and letters of the near file of a message, or nothing."""
        for path, parts in self.near_files():
            if parts and parts["uid"] == str(message.uids["near"]):
                return path, frozenset(parts["letters"] or "")
        return None

    def known(self):
        """Learns the messages that stand on both sides, and lets what was learnt of the others stand. One that nobody made is the judge's."""
        far, near = self.far(), {}
        for path, parts in self.near_files():
            with open(path, "rb") as file:
                near[name_of(file.read())] = int(parts["uid"]) if parts and parts["uid"] else None
        for name in set(far) & set(near):
            if name in self.made and name not in self.messages and near[name]:
                self.messages[name] = Message(name, {"far": far[name][0], "near": near[name]})
        for message in self.messages.values():
            message.own.clear()

    def moment(self, message):
        """What state and journal say of a message."""
        near = self.scene.near()
        return moment_of(near.text(".mbsyncstate"), near.text(".mbsyncstate.journal"), message.uids["far"], message.uids["near"], self.covered)

    # ---- acts

    def act(self, *kinds):
        """One act of these kinds, or of all; nothing where the one that was drawn cannot be done."""
        kinds = kinds or (self.mark_near, self.mark_near, self.mark_far, self.take, self.take, self.remove, self.expunge, self.undelete_near,
                          self.undelete_far, self.put_back, self.spoil, self.flag, self.move)
        kind = self.rng.choice(kinds)
        able = [it for _, it in sorted(self.messages.items()) if not it.odd]
        self.rng.shuffle(able)
        for message in able:
            try:
                if kind(message):
                    self.log.append(f"{kind.__name__} {message.name} {message.uids} must {message.must}")
                    return
            except FileNotFoundError:
                # The run has given the file another name just then.
                continue

    def give_up(self, message):
        """A person wants this message gone: nothing is promised of it from now on."""
        message.must = dict(NOTHING)

    def mark_near(self, message):
        found = self.path_of(message)
        if not found or "T" in found[1]:
            return False
        self.rename(message, *found, found[1] | {"T"})
        message.own.add("near")
        self.give_up(message)
        return True

    def mark_far(self, message):
        found = self.far().get(message.name)
        if not found or "T" in found[1]:
            return False
        self.scene.mark_far(found[0], found[1] | {"T"})
        message.own.add("far")
        self.give_up(message)
        return True

    def take(self, message):
        """Takes a file away, to be put back or not."""
        found = self.path_of(message)
        if not found or message.away:
            return False
        os.makedirs(self.scene.path("away"), exist_ok=True)
        away = self.scene.path("away/" + os.path.basename(found[0]))
        os.rename(found[0], away)
        message.away = away
        self.give_up(message)
        return True

    def put_back(self, message):
        """Puts a file back, without the mark of a removal."""
        if not message.away:
            return False
        base = os.path.basename(message.away).partition(":")[0]
        far = self.far().get(message.name)
        now = self.moment(message)
        os.rename(message.away, self.scene.path(f"inbox/cur/{base}:2,{self.rng.choice(['', 'S'])}"))
        message.away, message.kept_at = "", time.monotonic()
        message.must = kept_near(now, far is not None, "far" in message.own and bool(far) and "T" in far[1])
        return True

    def remove(self, message):
        """Removes a file for good."""
        found = self.path_of(message)
        if not found or self.rng.random() < 0.7:
            return False
        os.remove(found[0])
        self.give_up(message)
        return True

    def expunge(self, message):
        """Removes a far message for good."""
        found = self.far().get(message.name)
        if not found or self.rng.random() < 0.5:
            return False
        del self.scene.inbox().messages[found[0]]
        self.give_up(message)
        return True

    def undelete_near(self, message):
        found = self.path_of(message)
        if not found or "T" not in found[1]:
            return False
        far = self.far().get(message.name)
        now = self.moment(message)
        self.rename(message, *found, found[1] - {"T"})
        message.kept_at = time.monotonic()
        message.own.discard("near")
        message.must = kept_near(now, far is not None, "far" in message.own and bool(far) and "T" in far[1])
        return True

    def undelete_far(self, message):
        found = self.far().get(message.name)
        if not found or "T" not in found[1]:
            return False
        near, now = self.path_of(message), self.moment(message)
        self.scene.mark_far(found[0], found[1] - {"T"})
        message.own.discard("far")
        message.must = kept_far(now, near is not None, "near" in message.own and bool(near) and "T" in near[1])
        return True

    def spoil(self, message):
        """Gives a file an odd tail. The message is kept where it is kept already."""
        found = self.path_of(message)
        if not found or "T" in found[1] or message.must != {"far": True, "near": True}:
            return False
        message.odd = found[0].partition(f",U={message.uids['near']}")[0] + f",U={message.uids['near']}" + self.rng.choice(ODD_TAILS)
        os.rename(found[0], message.odd)
        return True

    def flag(self, message):
        """Sets or takes other flags, on either side."""
        letters = frozenset(self.rng.choice("FRS"))
        if self.rng.random() < 0.5:
            found = self.path_of(message)
            if not found:
                return False
            self.rename(message, *found, found[1] ^ letters)
        else:
            found = self.far().get(message.name)
            if not found:
                return False
            self.scene.mark_far(found[0], found[1] ^ letters)
        return True

    def move(self, message):
        """Moves a file between `cur` and `new`."""
        found = self.path_of(message)
        if not found:
            return False
        part = "new" if "/cur/" in found[0] else "cur"
        os.rename(found[0], self.scene.path(f"inbox/{part}/{os.path.basename(found[0])}"))
        return True

    def rename(self, message, path, _, letters):
        base = os.path.basename(path).partition(",U=")[0]
        os.rename(path, self.scene.path(f"inbox/cur/{base},U={message.uids['near']}:2,{''.join(sorted(letters))}"))

    def mend(self):
        """Gives each file with an odd tail a name as it should be, and puts some of the files back that are away."""
        for message in self.messages.values():
            if message.odd:
                if os.path.exists(message.odd):
                    os.rename(message.odd, message.odd.partition(":")[0] + ":2,S")
                message.odd = ""
            if message.away and self.rng.random() < 0.5:
                self.put_back(message)
                self.log.append(f"put back at last {message.name} must {message.must}")

    def new(self):
        """A new message, near or at the server."""
        self.count += 1
        name = f"m{self.count}"
        data = b"Message-ID: <%s@stale>\r\nSubject: %s\r\n\r\ntext of %s\r\n" % ((name.encode(),) * 3)
        self.made[name] = data
        if self.rng.random() < 0.5:
            self.scene.inbox().add(data)
            self.place["far"].add(name)
        else:
            self.scene.write(f"inbox/new/{self.count}.mine", data.replace(b"\r\n", b"\n"))
            self.place["near"].add(name)
        self.log.append(f"new {name}")
        return name

    # ---- commands of a run at work

    def sees(self, command, came):
        """A command of the run came at this time: where it names a message that was kept near since then, or too short a time before for a
        look, less is promised."""
        if command.verb not in (b"UID STORE", b"UID EXPUNGE"):
            return
        uid = command.uids()
        for message in self.messages.values():
            if message.uids["far"] == uid and came - message.kept_at < SOON:
                self.log.append(f"{command.verb.decode()} {uid} came soon after {message.name} was kept")
                message.must["far"] = None
                now = self.moment(message)
                if not (now.has("expunge near") or now.has("gone push")):
                    message.must["near"] = None
