"""An IMAP server in this process, whose mailboxes are dictionaries, and which a script can make misbehave at a command."""
import re
import socket
import threading

from tests.support.imap_side import IMAP_NAMES, LETTERS
from tests.support.listening import Listening

USER, PASSWORD = b"u", b"p"
COMMAND = re.compile(rb"(\S+) ((?:UID )?\S+) ?(.*)\r\n\Z", re.DOTALL)
LISTING, BODY, HEAD = b"(UID FLAGS RFC822.SIZE)", b"(UID BODY.PEEK[])", b"(UID BODY.PEEK[]<0.22>)"


class Box:
    """A mailbox: the letters of its messages' flags and their bytes by UID, its UIDVALIDITY, and its UIDNEXT."""

    def __init__(self, messages=(), validity=1):
        self.messages = {uid: (frozenset(), data) for uid, data in enumerate(messages, 1)}
        self.validity, self.next = validity, len(self.messages) + 1

    def add(self, data, letters=frozenset()):
        """A new message; gives its UID."""
        self.messages[self.next] = (frozenset(letters), data)
        self.next += 1
        return self.next - 1

    def flag(self, uid, letters):
        """Gives a message these flags in place of others."""
        self.messages[uid] = (frozenset(letters), self.messages[uid][1])

    def named(self, uids):
        """The UIDs of the messages that a set names."""
        found, last = set(), max(self.messages, default=0)
        for item in uids.split(b","):
            ends = [last if end == b"*" else int(end) for end in item.split(b":")]
            found.update(uid for uid in self.messages if min(ends) <= uid <= max(ends))
        return sorted(found)


class Command:
    """A command: its tag, its words, and how many of its kind have come, this one among them."""

    def __init__(self, tag, verb, words, count):
        self.tag, self.verb, self.words, self.count = tag, verb, words, count

    def asks(self, items, uid=None):
        """Whether it fetches these items, of this message where one is named."""
        return self.verb == b"UID FETCH" and self.words.endswith(b" " + items) and uid in (None, self.uids())

    def uids(self):
        """The one UID that it names, or its set."""
        first = self.words.split(b" ")[0]
        return int(first) if first.isdigit() else first


class Talk:
    """A connection."""

    def __init__(self, server, stream):
        self.server, self.stream, self.box = server, stream, None
        self.file = stream.makefile("rb")

    def send(self, *lines):
        """Says lines."""
        self.stream.sendall(b"".join(line + b"\r\n" for line in lines))

    def done(self, command, text=b"OK done"):
        """Answers a command."""
        self.send(command.tag + b" " + text)

    def hang_up(self):
        """Ends the connection."""
        self.stream.shutdown(socket.SHUT_RDWR)

    def serve(self):
        """Answers each command, unless the script of the server does."""
        self.server.connections += 1
        self.send(self.server.greeting)
        while found := COMMAND.match(self.file.readline()):
            verb = found[2].upper()
            self.server.counts[verb] = self.server.counts.get(verb, 0) + 1
            command = Command(found[1], verb, found[3], self.server.counts[verb])
            if not (self.server.script and self.server.script(self, command)):
                self.answer(command)
        self.stream.close()

    def answer(self, command):
        """Does what a command asks for."""
        answers = {b"CAPABILITY": self.capability, b"LOGIN": self.login, b"ENABLE": self.enable, b"LIST": self.names,
                   b"CREATE": self.create, b"SELECT": self.select, b"APPEND": self.append, b"UID FETCH": self.fetch,
                   b"UID STORE": self.store, b"UID EXPUNGE": self.expunge, b"NOOP": self.done, b"LOGOUT": self.logout}
        answers.get(command.verb, lambda it: self.done(it, b"BAD syntax"))(command)

    def capability(self, command):
        self.send(b"* CAPABILITY IMAP4rev1 IMAP4rev2")
        self.done(command)

    def login(self, command):
        is_known = [plain(word) for word in command.words.split(b" ")] == [USER, PASSWORD]
        self.done(command, b"OK done" if is_known else b"NO who")

    def enable(self, command):
        self.send(b"* ENABLED IMAP4rev2")
        self.done(command)

    def names(self, command):
        self.send(*(b'* LIST () "/" %s' % quoted(name.encode()) for name in self.server.boxes))
        self.done(command)

    def create(self, command):
        self.server.boxes.setdefault(plain(command.words).decode(), Box())
        self.done(command)

    def select(self, command):
        self.box = self.server.boxes.get(plain(command.words).decode())
        if self.box is None:
            return self.done(command, b"NO such mailbox")
        flags = b" ".join(sorted(IMAP_NAMES.values()))
        self.send(b"* FLAGS (%s)" % flags, b"* %d EXISTS" % len(self.box.messages),
                  b"* OK [UIDVALIDITY %d] validity" % self.box.validity, b"* OK [UIDNEXT %d] next" % self.box.next,
                  b"* OK [PERMANENTFLAGS (%s)] flags" % flags)
        return self.done(command, b"OK [READ-WRITE] done")

    def append(self, command):
        name, flags, size = re.match(rb"(\S+) \(([^)]*)\) (?:\"[^\"]*\" )?\{(\d+)\}\Z", command.words).groups()
        self.send(b"+ go")
        data = self.file.read(int(size))
        if self.file.readline() == b"":
            # The client has ended in the middle: a server keeps nothing of such a message.
            raise ConnectionResetError
        box = self.server.boxes[plain(name).decode()]
        uid = box.add(data, letters_of(flags))
        if not (self.server.added and self.server.added(self, command)):
            self.done(command, b"OK [APPENDUID %d %d] done" % (box.validity, uid))

    def fetch(self, command):
        uids, items = command.words.split(b" ", 1)
        places = {uid: place for place, uid in enumerate(self.box.messages, 1)}
        told = [self.told(places[uid], uid, items) for uid in self.box.named(uids)]
        self.stream.sendall(b"".join(told) + command.tag + b" OK done\r\n")

    def told(self, place, uid, items):
        """The reply that tells these items of a message."""
        letters, data = self.box.messages[uid]
        if items == LISTING:
            return b"* %d FETCH (UID %d FLAGS (%s) RFC822.SIZE %d)\r\n" % (place, uid, names_of(letters), len(data))
        return body_told(place, uid, b"BODY[]<0>", data[:22]) if items == HEAD else body_told(place, uid, b"BODY[]", data)

    def store(self, command):
        uids, sign, flags = re.match(rb"(\S+) ([+-])FLAGS\.SILENT \(([^)]*)\)\Z", command.words).groups()
        for uid in self.box.named(uids):
            letters = self.box.messages[uid][0]
            self.box.flag(uid, letters | letters_of(flags) if sign == b"+" else letters - letters_of(flags))
        self.done(command)

    def expunge(self, command):
        for uid in self.box.named(command.words):
            if "T" in self.box.messages[uid][0]:
                self.send(b"* %d EXPUNGE" % (1 + list(self.box.messages).index(uid)))
                del self.box.messages[uid]
        self.done(command)

    def logout(self, command):
        self.send(b"* BYE bye")
        self.done(command)


class ScriptedServer(Listening):
    """A server at a free port of this machine.

    `script` is called with the connection and each command, and answers in place of the server where it gives a true value; `added` is
    called so where a message was appended and the reply is due. `boxes` are the mailboxes by name; `counts` says how often each command
    came, and `connections` how many were made; `greeting` begins each."""

    def __init__(self, messages=(), name="INBOX"):
        self.boxes, self.counts = {name: Box(messages)}, {}
        self.script = self.added = None
        self.talks, self.lock = [], threading.Lock()
        self.connections, self.greeting = 0, b"* OK ready"
        super().__init__()

    def take(self, stream):
        """Serves a connection in a thread of its own."""
        with self.lock:
            self.talks.append(threading.Thread(target=self.talk, args=(stream,), daemon=True))
            self.talks[-1].start()

    def rest(self):
        """Waits until the connections have ended: what clients sent before they ended is done then."""
        with self.lock:
            talks, self.talks = self.talks, []
        for talk in talks:
            talk.join(10)

    def talk(self, stream):
        try:
            Talk(self, stream).serve()
        except (BrokenPipeError, ConnectionResetError):
            # The client was killed, or has ended in the middle.
            stream.close()


def body_told(place, uid, item, data):
    """The reply that tells bytes of a message."""
    return b"* %d FETCH (UID %d %s {%d}\r\n%s)\r\n" % (place, uid, item, len(data), data)


def names_of(letters):
    return b" ".join(IMAP_NAMES[letter] for letter in sorted(letters))


def letters_of(names):
    return frozenset(LETTERS[name.lower()] for name in names.split())


def quoted(name):
    """The word that says this."""
    return b'"%s"' % re.sub(rb'(["\\])', rb"\\\1", name)


def plain(word):
    """What a quoted word says."""
    return re.sub(rb"\\(.)", rb"\1", word[1:-1]) if word[:1] == b'"' else word
