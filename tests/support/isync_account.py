"""An account that isync has synchronised: a server in this process, and the folders and states as isync 1.5 leaves them (1.4 the same, but
with the server's names in place of letters)."""
import os
import shutil

from tests.support.configuration import imap_store
from tests.support.converted import convert
from tests.support.edge_scene import Edge
from tests.support.scripted_server import Box, quoted

HEADS = "FarUidValidity 1\nNearUidValidity 1447\nMaxPulledUid 2\nMaxPushedUid 2\n\n"
# Letters of a name, as the server writes it: RFC 3501, section 5.1.3.
SPELLED = {"ü": "&APw-", "Ö": "&ANY-", "&": "&-"}
ISYNCS = "SSLType None\nAuthMechs LOGIN\n"


def spelled(name):
    return "".join(SPELLED.get(letter, letter) for letter in name)


class Account(Edge):
    """A home folder with isync's configuration and files, over a server with this delimiter and namespace. `boxes` are isync's names of
    mailboxes, each with two messages that both sides have; `where` is the line SyncState of the channel, if it has one."""

    def __init__(self, boxes, channel, where="", delimiter="/", prefix="", inbox="~/inbox", is_utf7=False):
        self.boxes, self.delimiter, self.prefix, self.inbox_path = boxes, delimiter, prefix, inbox
        self.where, self.is_utf7, self.in_letters = where, is_utf7, set()
        super().__init__()
        self.server.script = self.answer
        self.server.boxes = {self.server_name(box): Box(self.messages(box)) for box in boxes}
        for number, box in enumerate(boxes):
            self.leave(box, number)
        self.channel = channel
        self.configure(imap_store(self.server.port, more=ISYNCS)
                       + f"MaildirStore near\nSubFolders Verbatim\nPath ~/mail/\nInbox {inbox}\n\n{channel}{where}")

    def configure(self, text):
        with open(self.path(".mbsyncrc"), "w", encoding="utf-8") as file:
            file.write(text)

    def answer(self, talk, command):
        """The server's own delimiter and namespace."""
        if command.verb == b"CAPABILITY":
            talk.send(b"* CAPABILITY IMAP4rev1 IMAP4rev2 NAMESPACE")
        elif command.verb == b"NAMESPACE":
            talk.send(b'* NAMESPACE ((%s "%s")) NIL NIL' % (quoted(self.prefix.encode()), self.delimiter.encode()))
        elif command.verb == b"LIST":
            names = [name if talk in self.in_letters else spelled(name) for name in self.server.boxes]
            talk.send(*(b'* LIST () "%s" %s' % (self.delimiter.encode(), quoted(name.encode())) for name in names))
        elif command.verb == b"LOGOUT":
            # isync waits for the end of the connection.
            talk.logout(command)
            talk.hang_up()
            return True
        else:
            self.note_names(talk, command)
            return False
        talk.done(command)
        return True

    def note_names(self, talk, command):
        """Names are in letters where a client asks for IMAP4rev2, and in modified UTF-7 otherwise."""
        if command.verb == b"ENABLE":
            self.in_letters.add(talk)
        elif command.verb in (b"SELECT", b"CREATE", b"APPEND") and talk not in self.in_letters:
            for name in self.server.boxes:
                command.words = command.words.replace(quoted(spelled(name).encode()), quoted(name.encode()))

    def messages(self, box):
        return [f"Subject: {spelled(box)} {number}\r\n\r\ntext\r\n".encode() for number in (1, 2)]

    def far_name(self, box):
        """What mbsync calls a mailbox."""
        return spelled(self.server_name(box))

    def server_name(self, box):
        """What the server calls it, in letters, since mbsync asks for IMAP4rev2."""
        prefix = "" if box == "INBOX" or box.startswith("INBOX/") else self.prefix
        return prefix + box.replace("/", self.delimiter)

    def here(self, box):
        """The folder in which mbsync has it."""
        return self.inbox_path.removeprefix("~/") if box == "INBOX" else "mail/" + self.far_name(box)

    def isyncs(self, box):
        """The folder in which isync has it."""
        name = spelled(box) if self.is_utf7 else box
        inbox = self.inbox_path.removeprefix("~/")
        return inbox + name[len("INBOX"):] if box == "INBOX" or box.startswith("INBOX/") else "mail/" + name

    def leave(self, box, number):
        """What isync leaves of a mailbox. The first one's second message was flagged since."""
        folder = self.isyncs(box)
        for part in ("cur", "new", "tmp"):
            os.makedirs(self.path(f"{folder}/{part}"), exist_ok=True)
        for uid, message in enumerate(self.messages(box), 1):
            self.write(f"{folder}/cur/{uid}.host,U={uid}:2,{'F' if number == 0 and uid == 2 else ''}", message.replace(b"\r\n", b"\n"))
        self.write(f"{folder}/.uidvalidity", b"1447\n2\n")
        name = (spelled(box) if self.is_utf7 else box).replace("/", "!")
        place = {"": f".mbsync/:far:{name}_:near:{name}", "SyncState *\n": f"{folder}/.mbsyncstate"}.get(self.where, f"states/{name}")
        self.write(place, (HEADS + "1 1 \n2 2 \n").encode())

    def convert(self, *words):
        return convert(self.home, *words)

    def move(self):
        """Moves from isync in the order of the manual page: converted, completed (nothing is missing here), once more, put in place."""
        return [self.convert()[0], self.convert()[0], self.convert("--switch")[0]]

    def tree(self):
        """Each file below the home folder, without locks and isync's own states."""
        found = set()
        for folder, _, names in os.walk(self.home):
            found.update(os.path.relpath(os.path.join(folder, name), self.home) for name in names)
        return found

    def all_near(self):
        return {box: self.near_messages(self.here(box)) for box in self.boxes}

    def all_far(self):
        return {box: self.far_messages(self.server_name(box)) for box in self.boxes}

    def copy_home(self, place):
        """Puts a copy of the home folder, made before, in place again."""
        shutil.rmtree(self.home)
        shutil.copytree(place, self.home, symlinks=True)
