"""The scenes of edges.py that tell how often a server is asked, over how many connections, and what a person reads of what it says."""
import os

from tests.support.configuration import imap_store
from tests.support.edge_scene import THREE, Edge, far, near
from tests.support.scene import HOME_STORE, ONE, TWO, configuration, near_text
from tests.support.scripted_server import BODY, Box, ScriptedServer

TWENTY = [f"box{number:02}" for number in range(1, 21)]
# Three channels of one mailbox each: two over one store, and one over another.
CHANNELS = """\
Channel c
Far :far:
Near :near:
Create Near

Channel d
Far :far:work
Near :near:work
Create Near

Channel e
Far :other:
Near :near:elsewhere
Create Near
"""


def stores_at(*ports):
    """A configuration whose two far stores are at these ports."""
    return "".join(imap_store(port, name) for name, port in zip(("far", "other"), ports)) + HOME_STORE + CHANNELS


def asked(server):
    """How many connections were made, and how many commands came. Both are counted from here on."""
    found = [server.connections, sum(server.counts.values())]
    server.connections, server.counts = 0, {}
    return found


def twenty(tally):
    """Twenty mailboxes, at first and with nothing to do."""
    with Edge(patterns="box*", create="Near") as scene:
        scene.server.boxes = {name: Box([ONE, TWO]) for name in TWENTY}
        tally.same("twenty mailboxes are pulled", scene.run("all")[0], 0)
        tally.same("each message is there", [scene.near_messages(f"mail/{name}") for name in TWENTY], [near(ONE, TWO)] * 20)
        tally.same("over one connection", asked(scene.server)[0], 1)
        tally.same("then nothing to do", scene.run("all"), [0, *(line for name in TWENTY for line in (f"all:{name}", "ran"))])
        connections, commands = asked(scene.server)
        tally.tell(f"twenty mailboxes with nothing to do: {connections} connection, {commands} commands")
        tally.same("over one connection, with two commands a mailbox and six more at most", [connections, commands <= 46], [1, True])


def labelled(tally):
    """Mailboxes with labels: the names of mailboxes are asked for over the session that is theirs then."""
    with Edge(patterns="box*", create="Near") as scene:
        scene.server.boxes = {name: Box([ONE]) for name in TWENTY[:2]}
        scene.configure(configuration(scene.server.port, "box*", "Near").replace("\nCreate", "\nKeyword a $Label1\nCreate"))
        tally.same("two mailboxes with labels are pulled", scene.run("all")[0], 0)
        tally.same("over one connection", asked(scene.server)[0], 1)


def stores(tally):
    """Channels of one store share a session, and each store has its own."""
    with Edge(ONE) as scene:
        other = ScriptedServer([TWO])
        scene.server.boxes["work"] = Box([THREE])
        scene.configure(stores_at(scene.server.port, other.port))
        told = [0, "c:INBOX", "new pull 1 -> 1", "ran", "d:work", "new pull 1 -> 1", "ran", "e:INBOX", "new pull 1 -> 1", "ran"]
        tally.same("three channels of two stores", scene.run("c", "d", "e"), told)
        tally.same("two connections", [asked(scene.server)[0], asked(other)[0]], [1, 1])
        tally.same("there and back", scene.run("c", "e", "d")[0], 0)
        tally.same("three connections", [scene.server.connections, other.connections], [2, 1])
        tally.same("each session was ended", [scene.server.counts[b"LOGOUT"], other.counts[b"LOGOUT"]], [2, 1])
        other.stop()


def users(tally):
    """Two stores at one server, which lets the user of one in: the other is not asked over the session of that user."""
    with Edge(ONE) as scene:
        scene.server.boxes["work"] = Box([THREE])
        scene.configure(imap_store(scene.server.port) + imap_store(scene.server.port, "other", user="v") + HOME_STORE + CHANNELS)
        rejected = ["mbsync: cannot open other", "  the server rejected the login: correct User or Pass of IMAPStore other, and run again",
                    "  the server said: who"]
        told = [1, "c:INBOX", "new pull 1 -> 1", "ran", "d:work", "new pull 1 -> 1", "ran", *rejected]
        tally.same("the user of the other store has to log in", scene.run("c", "e", "d"), told)
        tally.same("nothing is pulled for it", scene.near_messages("mail/elsewhere"), {})


def ended_between(tally):
    """The server ends the session where it is asked next: once, at a list and at a mailbox."""
    for verb, count in ((b"LIST", 2), (b"SELECT", 2)):
        with Edge(ONE) as scene:
            scene.server.boxes["work"] = Box([THREE])
            scene.configure(stores_at(scene.server.port, 1))
            scene.server.script = lambda talk, command, verb=verb, count=count: (
                (command.verb, command.count) == (verb, count) and (talk.send(b"* BYE idle for too long"), talk.hang_up()))
            told = [0, "c:INBOX", "new pull 1 -> 1", "ran", "d:work", "new pull 1 -> 1", "ran"]
            tally.same(f"a session that is ended at {verb.decode()} is begun anew", [scene.run("c", "d"), scene.server.connections], [told, 2])
            tally.same("each message is there once", [scene.sides(), scene.near_messages("mail/work")], [[near(ONE), far(ONE)], near(THREE)])


def failed_box(tally):
    """A mailbox that fails does not harm those behind it."""
    def break_off(talk, command):
        return command.asks(BODY) and talk.box is talk.server.boxes["b"] and (talk.send(b"* BYE [ALERT] until tomorrow"), talk.hang_up())

    with Edge(patterns="*", create="Near") as scene:
        scene.server.boxes = {"a": Box([ONE]), "b": Box([TWO]), "c": Box([THREE])}
        scene.server.script = break_off
        found = scene.run("all")
        tally.same("the others are synchronised", [scene.near_messages("mail/a"), scene.near_messages("mail/c")], [near(ONE), near(THREE)])
        line = "  the server of IMAPStore far ended the session: run again"
        said = "  the server said: [ALERT] until tomorrow"
        alerts = ["mbsync: alert from far: until tomorrow"] * 3
        faults = [it for it in found if str(it).startswith(("mbsync: all", "  "))]
        tally.same("the one is told, with what the server said", [found[0], faults], [1, ["mbsync: all:b: stopped", line, said]])
        tally.same("each alert is told", [it for it in found if str(it).startswith("mbsync: alert")], alerts)
        scene.server.script = None
        tally.same("then it is pulled", [scene.run("all")[0], scene.near_messages("mail/b")], [0, near(TWO)])


def refused_box(tally):
    """The server refuses a mailbox, and the next one is asked."""
    with Edge(patterns="*", create="Near") as scene:
        scene.server.boxes = {"a": Box([ONE]), "b": Box([TWO])}
        scene.server.script = lambda talk, command: (
            command.verb == b"SELECT" and b'"a"' in command.words and (talk.done(command, b"NO [NOPERM] not yours"), True))
        found = scene.run("all")
        tally.same("a mailbox that cannot be selected is told", [found[0], found[-1]], [1, "  the server said: [NOPERM] not yours"])
        tally.same("the next one is pulled", scene.near_messages("mail/b"), near(TWO))


def words(tally):
    """What the server says behind a refused message, and beside a run that goes well."""
    with Edge(ONE) as scene:
        scene.near()
        scene.write("inbox/new/17.mine", near_text(TWO))
        scene.server.script = lambda talk, command: (
            command.verb == b"APPEND" and (talk.done(command, b"NO [OVERQUOTA] Over quota \xff\x07"), True))
        found = scene.run("c")
        tally.same("what a server says is told", [found[0], found[-1]], [1, r"  the server said: [OVERQUOTA] Over quota \ff\07"])
    with Edge(ONE) as scene:
        scene.server.greeting = b"* OK [ALERT] closed on Sunday"
        told = [0, "c:INBOX", "new pull 1 -> 1", "ran", "mbsync: alert from far: closed on Sunday"]
        tally.same("an alert is no fault", scene.run("c"), told)
        tally.same("nor with -l", scene.run("-l", "all"), [0, "all:INBOX", "mbsync: alert from far: closed on Sunday"])


def unopened(tally):
    """Why a server does not open."""
    at = "  the server of IMAPStore far "
    cases = [
        ("says BYE", b"* BYE [UNAVAILABLE] too many connections", None,
         [at + "ended the session: run again", "  the server said: [UNAVAILABLE] too many connections"]),
        ("is none", b"HTTP/1.1 400 Bad Request", None,
         [at + "sent something that is not IMAP: is an IMAP server at its Host and Port?", "  the server said: HTTP/1.1 400 Bad Request"]),
        ("is an older one", b"* OK ready", lambda talk, command: command.verb == b"CAPABILITY" and (
            talk.send(b"* CAPABILITY IMAP4rev1"), talk.done(command), True), [at + "does not offer IMAP4rev2, which mbsync needs"]),
        ("does not list", b"* OK ready", lambda talk, command: command.verb == b"LIST" and (talk.done(command, b"NO not now"), True),
         [at + "refused a command after the login", "  the server said: not now"]),
        ("breaks off", b"* OK ready", lambda talk, command: command.verb == b"CAPABILITY" and (talk.hang_up(), True),
         ["  the connection to the server of IMAPStore far ended: run again"]),
    ]
    for name, greeting, script, lines in cases:
        with Edge(ONE) as scene:
            scene.server.greeting, scene.server.script = greeting, script
            tally.same(f"a server that {name}", scene.run("c"), [1, "mbsync: cannot open far", *lines])
    with Edge(ONE, password="verysecret") as scene:
        scene.server.script = lambda talk, command: command.verb == b"LOGIN" and (
            talk.done(command, b"NO user u with verysecret is unknown"), True)
        line = "  the server rejected the login: correct User or Pass of IMAPStore far, and run again"
        tally.same("a server that tells the password is not repeated", scene.run("c"), [1, "mbsync: cannot open far", line])
    with Edge(ONE, password=r'"se\"cr\\et"') as scene:
        scene.server.script = lambda talk, command: command.verb == b"LOGIN" and (
            talk.done(command, b'NO LOGIN "u" "se\\"cr\\\\et" was refused'), True)
        tally.same("nor one that tells it as it was sent", scene.run("c"), [1, "mbsync: cannot open far", line])


def skipped(tally):
    """Mailboxes whose names are beyond the limits are told once."""
    with Edge(ONE, patterns="* INBOX", create="Near") as scene:
        scene.server.boxes.update({"50% off": Box([TWO]), 'a"b': Box([TWO]), "fit": Box([THREE])})
        os.makedirs(scene.path("mail/what?/cur"))
        os.makedirs(scene.path("mail/100%/cur"))
        for part in ("new", "tmp"):
            os.makedirs(scene.path(f"mail/100%/{part}"))
        lines = [f"mbsync: skipped for its name: {name}" for name in ("far:50% off", r"far:a\22b", "near:100%")]
        found = scene.run("-l", "all")
        tally.same("with -l", [found[0], sorted(found[1:])], [0, sorted(["all:INBOX", "all:fit", *lines])])
        found = scene.run("all", "c")
        tally.same("in a run of two channels", [found[0], sorted(it for it in found[1:] if it.startswith("mbsync"))], [0, sorted(lines)])
        tally.same("the others are synchronised", [scene.near_messages(), scene.near_messages("mail/fit")], [near(ONE), near(THREE)])


def own_parts(tally):
    """Mailboxes below whose folders those of another one would lie, or its own files, and channels that name such a mailbox."""
    with Edge(ONE, patterns="* INBOX", create="Near") as scene:
        odd = ("a/cur", "a/cur/x", "new", "tmp/x", ".uidvalidity.new", "a/.mbsyncstate.journal")
        scene.server.boxes.update({name: Box([TWO]) for name in ("a", *odd)})
        lines = [f"mbsync: skipped for its name: far:{name}" for name in odd]
        found = scene.run("-l", "all")
        tally.same("names of folders and files of a mailbox, with -l", [found[0], sorted(found[1:])], [0, sorted(["all:INBOX", "all:a", *lines])])
        tally.same("a channel that could not choose them tells nothing of them", [it for it in scene.run("c") if "skipped" in str(it)], [])
        found = scene.run("c", "all")
        tally.same("one that could tells each once", sorted(it for it in found[1:] if "skipped" in it), sorted(lines))
        tally.same("nothing is made for them", [scene.near_messages("mail/a"), os.path.exists(scene.path("mail/tmp"))], [near(TWO), False])
        for far, near_box in (("a/cur", ""), ("a", "tmp/x")):
            scene.configure(configuration(scene.server.port, "*") + f"\nChannel odd\nFar :far:{far}\nNear :near:{near_box}\nCreate Both\n")
            scene.server.counts.clear()
            told = f"mbsync: config channel odd: mailbox {far if '/' in far else near_box}"
            tally.same(f"a channel between {far} and {near_box}", [scene.run("odd")[:2], scene.server.counts], [[1, told], {}])


def inbox(tally):
    """INBOX is one mailbox, however the server, a folder or the configuration spells it."""
    with Edge(ONE, patterns="* INBOX", create="Both") as scene:
        scene.server.script = lambda talk, command: command.verb == b"LIST" and (
            talk.send(b'* LIST () "/" Inbox', b'* LIST () "/" inbox'), talk.done(command), True)
        tally.same("a server that spells it otherwise", scene.run("-l", "all"), [0, "all:INBOX"])
        tally.same("its mail is pulled", [scene.run("all")[0], scene.near_messages()], [0, near(ONE)])
        os.makedirs(scene.path("mail"))
        os.rename(scene.path("inbox"), scene.path("mail/Inbox"))
        text = configuration(scene.server.port, "* INBOX", "Both").replace("~/inbox", "~/mail/Inbox")
        scene.configure(text + "\nChannel other\nFar :far:inbox\nNear :near:Inbox\n")
        tally.same("Inbox below Path is no mailbox beside INBOX", scene.run("all"), [0, "all:INBOX", "ran"])
        tally.same("nor is it in the configuration", scene.run("other"), [0, "other:INBOX", "ran"])
        scene.near("mail/INBOX")
        scene.near("mail/iNbOx")
        notices = [f"mbsync: skipped for its name: near:{name}" for name in ("INBOX", "iNbOx")]
        # Which of these folders could be chosen, were INBOX a name like others: the pattern INBOX is the only one that matches INBOX.
        for patterns, listed, told in (("* INBOX", ["all:INBOX"], notices), ("INBOX", ["all:INBOX"], notices[:1]), ("*", [], notices[1:]),
                                       ("a*", [], [])):
            scene.configure(text.replace("* INBOX", patterns))
            tally.same(f"other folders of this name are skipped, with Patterns {patterns} and -l", scene.run("-l", "all"), [0, *listed, *told])
            tally.same("and in a run", scene.run("all"), [0, *(line for box in listed for line in (box, "ran")), *told])
        tally.same("nothing is made of them", [list(scene.server.boxes), scene.near_messages("mail/INBOX"), scene.near_messages("mail/iNbOx")],
                   [["INBOX"], {}, {}])


def begun(tally):
    """A mailbox whose first run was interrupted, and that was removed at the server then, is not made there again."""
    with Edge(ONE, TWO, patterns="a", create="Both") as scene:
        scene.server.boxes["a"] = Box([ONE, TWO])
        scene.server.script = lambda talk, command: command.verb == b"UID FETCH" and command.count > 2 and (talk.hang_up(), True)
        scene.run("all")
        tally.same("a journal stands, and no state", [os.path.exists(scene.path("mail/a/" + name)) for name in (".mbsyncstate.journal", ".mbsyncstate")],
                   [True, False])
        scene.server.script = None
        del scene.server.boxes["a"]
        found = scene.run("all")
        tally.same("it is absent", found[:2], [1, "mbsync: all:a: absent far"])
        tally.same("and is not made", "a" in scene.server.boxes, False)


SCENES = [twenty, labelled, stores, users, ended_between, failed_box, refused_box, words, unopened, skipped, own_parts, inbox, begun]
