"""The scenes of from_isync.py over whole accounts: folders with letters beyond ASCII, INBOX by a wildcard, mailboxes below INBOX, servers
whose delimiter is no slash, and all of these at once."""
import os
import shutil
import subprocess
import tempfile

from tests.support.begun import COMMAND as START_OVER
from tests.support.converted import CONVERTER, command_of, killed_at
from tests.support.edge_scene import FOUR
from tests.support.go_between import GoBetween
from tests.support.isync_account import Account

ISYNC = "/usr/bin/mbsync"
BOXES = ("INBOX", "INBOX/sub", "INBOX/sub/deep", "Archive", "Archive/2024", "Entwürfe", "Entwürfe/Ö", "R&D")
NO_INBOX_BELOW = ("INBOX", "Archive", "Archive/2024", "Entwürfe", "Entwürfe/Ö", "R&D")
CHANNEL = "Channel all\nFar :far:\nNear :near:\nPatterns %s\nCreate Both\nExpunge Both\n"
SERVERS = (("/", ""), (".", ""), (".", "INBOX."), ("/", "INBOX/"))
PLACES = ("", "SyncState *\n", "SyncState ~/states/\n")


def accounts(patterns="*"):
    """Accounts of every kind of server, state and version of isync."""
    for delimiter, prefix in SERVERS:
        for where in PLACES:
            for is_utf7 in (False,) if prefix else (False, True):
                boxes = NO_INBOX_BELOW if prefix else BOXES
                name = f"delimiter {delimiter}, namespace {prefix or 'none'}, {where.strip() or 'states apart'}, {'1.4' if is_utf7 else '1.5'}"
                yield name, Account(boxes, CHANNEL % patterns, where, delimiter, prefix, is_utf7=is_utf7)


def lines_of_run(account, more):
    """What the first run has to print: a block for each mailbox, with what changed since alone."""
    names = sorted(map(account.far_name, account.boxes))
    blocks = [[f"all:{name}", *more.get(name, []), "ran"] for name in names]
    return [0, *(line for block in blocks for line in block)]


def whole_accounts(tally):
    """After the steps of the manual page the first run does what changed since, and nothing else."""
    for name, account in accounts():
        with account:
            far, near = account.all_far(), account.all_near
            tally.same(f"{name}: it is carried over", account.move(), [0, 0, 0])
            before = near()
            tally.same("each mailbox is where mbsync has it", [len(messages) for messages in before.values()], [2] * len(before))
            account.write(account.here("Archive/2024") + "/new/1.unsent", FOUR.replace(b"\r\n", b"\n"))
            wanted = lines_of_run(account, {"INBOX": ["flags push 2 2 +F"], account.far_name("Archive/2024"): ["new push 3 -> 3"]})
            if account.program:
                tally.same("the first run does what changed since", account.run("all"), wanted)
                tally.same("no mailbox is made", sorted(account.server.boxes), sorted(map(account.server_name, account.boxes)))
                tally.same("far nothing is copied", {box: sorted(messages) for box, messages in account.all_far().items()},
                           {box: [1, 2, 3][:2 + (box == "Archive/2024")] for box in far})
                tally.same("near nothing is copied", {box: len(messages) for box, messages in near().items()},
                           {box: 2 + (box == "Archive/2024") for box in before})
                tally.same("the next run has nothing to do", account.run("all"), lines_of_run(account, {}))


def inbox_below_path(tally):
    """Inbox is below Path, as INBOX or under another name."""
    for inbox in ("~/mail/INBOX", "~/mail/Inbox", "~/mail/a/b"):
        for where in PLACES[:2]:
            with Account(BOXES, CHANNEL % "*", where, inbox=inbox) as account:
                tally.same(f"Inbox {inbox}: it is carried over", account.move(), [0, 0, 0])
                if account.program:
                    tally.same("the first run", account.run("all"), lines_of_run(account, {"INBOX": ["flags push 2 2 +F"]}))
                    tally.same("no mailbox is made", sorted(account.server.boxes), sorted(map(account.server_name, account.boxes)))


def excluded(tally):
    """What isync leaves out by its patterns is left out here, too, and INBOX is taken exactly if isync has synchronised it."""
    for patterns, boxes, wanted in (
        ("* !Junk", ("INBOX", "Junk", "a"), "Patterns * !Junk INBOX"),
        ("INB* a", ("INBOX", "a"), "Patterns INB* a INBOX"),
        ("* !INBOX", ("INBOX", "a"), "Patterns * !INBOX"),
        ("a INBOX", ("INBOX", "a"), "Patterns a INBOX"),
        ("*", ("a",), "Patterns *"),
        ("Entwürfe* R&D", ("Entwürfe", "R&D"), "Patterns Entw&APw-rfe* R&-D"),
        ("%", ("INBOX", "a", "a/b"), "Patterns % INBOX"),
    ):
        with Account(boxes, CHANNEL % patterns) as account:
            account.convert()
            with open(account.path(".mbsyncrc.from-isync"), encoding="ascii") as file:
                tally.check(f"Patterns {patterns}", f"\n{wanted}\n" in file.read(), wanted)
    with Account(("INBOX", "a", "a/b"), CHANNEL % "%", delimiter=".") as account:
        account.move()
        with open(account.path(".mbsyncrc"), encoding="ascii") as file:
            tally.check("Patterns % at a server with another delimiter", "\nPatterns % INBOX !a.b\n" in file.read())


def single_mailboxes(tally):
    """Channels without patterns: the far name becomes the server's, the near one stays."""
    for delimiter, prefix, far in (("/", "", "Archive/2024"), (".", "INBOX.", "INBOX.Archive.2024")):
        channel = "Channel all\nFar :far:Archive/2024\nNear :near:Archive/2024\n"
        with Account(("Archive/2024",), channel, "", delimiter, prefix) as account:
            tally.same("it is carried over", account.move(), [0, 0, 0])
            with open(account.path(".mbsyncrc"), encoding="ascii") as file:
                tally.check("its names", f"Far :far:{far}\nNear :near:Archive/2024\n" in file.read())
            if account.program:
                tally.same("the first run", account.run("all"), [0, f"all:{far}", "flags push 2 2 +F", "ran"])


def without_asking(tally):
    """Whoever does not convert once more after completing the configuration is refused where that matters."""
    with Account(("INBOX", "Archive/2024"), CHANNEL % "*/2024", delimiter=".") as account:
        account.convert()
        told = account.convert("--switch")
        tally.check("the switch says what to do", told[0] == 2 and "leaves out Archive.2024" in told[1]
                    and "run mbsync-from-isync once more without --switch" in told[1], told)
        tally.same("nothing was moved", sorted(os.listdir(account.path("mail/Archive/2024"))),
                   [".mbsyncstate.from-isync", ".uidvalidity", "cur", "new", "tmp"])
        tally.same("followed, it goes on", [account.convert()[0], account.convert("--switch")[0]], [0, 0])
    with Account(("INBOX", "a"), CHANNEL % "*") as account:
        account.convert()
        account.server.stop()
        told = account.convert("--switch")
        tally.check("a server that is not there", told[0] == 2 and told[1].endswith("since") and "could not be asked" in told[2], told)


def two_folders(tally):
    """A folder under both names: a person has to say which one isync has."""
    with Account(("INBOX", "Entwürfe"), CHANNEL % "*") as account:
        shutil.copytree(account.path("mail/Entwürfe"), account.path("mail/Entw&APw-rfe"))
        told = account.convert()
        tally.check("both are named", told[0] == 1 and "~/mail/Entw&APw-rfe and ~/mail/Entwürfe have one mailbox" in "".join(map(str, told)), told)
        tally.same("the switch is refused", account.convert("--switch")[0], 2)
        shutil.move(account.path("mail/Entw&APw-rfe"), account.path("elsewhere"))
        tally.same("without the other one it goes on", account.move(), [0, 0, 0])


def renamed_before(tally):
    """A person has renamed the folders by hand first."""
    for where in PLACES:
        with Account(("INBOX", "Entwürfe"), CHANNEL % "*", where) as account:
            shutil.move(account.path("mail/Entwürfe"), account.path("mail/Entw&APw-rfe"))
            tally.same("their states are found", account.move(), [0, 0, 0])
            tally.same("and in place", os.path.isfile(account.path("mail/Entw&APw-rfe/.mbsyncstate")), True)


def run_too_early(tally):
    """mbsync is run before the switch: no folder has a first run beside the states that wait."""
    with Account(BOXES, CHANNEL % "*", delimiter=".") as account:
        account.convert()
        account.convert()
        places = [os.path.exists(account.path(account.here(box) + "/.mbsyncstate.from-isync")) for box in account.boxes]
        tally.same("each folder that mbsync has bears the note", places, [True] * len(places))


def killed_switch(tally):
    """The switch is killed at each of its changes, and run again."""
    command = command_of(CONVERTER)
    for delimiter, where in (("/", ""), (".", "SyncState *\n")):
        with Account(BOXES, CHANNEL % "*", where, delimiter) as account, tempfile.TemporaryDirectory() as kept:
            account.convert()
            account.convert()
            shutil.copytree(account.home, kept + "/home", symlinks=True)
            account.convert("--switch")
            whole, at, ends, status = account.tree(), 0, set(), 99
            while status == 99:
                account.copy_home(kept + "/home")
                status = killed_at(command, account.home, ["--switch"], at)
                again = killed_at(command, account.home, ["--switch"], 10**6) if status == 99 else status
                # Where all was in place already there is nothing to be switched.
                ends.add((again in (0, 2), account.tree() == whole))
                at += 1
            tally.same(f"{where.strip() or 'states apart'}: killed at each of {at} places and run again, it comes to the same end", ends,
                       {(True, True)})


def by_isync_itself(tally):
    """isync itself has synchronised the account, over a go-between."""
    if not os.access(ISYNC, os.X_OK):
        tally.skip("accounts that isync itself has synchronised", f"it is not installed at {ISYNC}")
        return
    for delimiter, prefix in SERVERS:
        for where in ("", "SyncState *\n"):
            boxes = NO_INBOX_BELOW if prefix else BOXES
            with Account(boxes, CHANNEL % "*", where, delimiter, prefix, is_utf7=True) as account:
                for folder in ("mail", "inbox", ".mbsync"):
                    shutil.rmtree(account.path(folder), ignore_errors=True)
                os.makedirs(account.path("mail"))
                between = GoBetween(account.server.port)
                with open(account.path(".mbsyncrc"), encoding="utf-8") as file:
                    text = file.read()
                account.configure(text.replace(f"Port {account.server.port}", f"Port {between.port}"))
                known = account.words(["all"], True)
                known["args"] = [ISYNC, "-a"]
                done = subprocess.run(**known, capture_output=True, timeout=120, check=False)
                account.configure(text)
                what = f"isync, delimiter {delimiter}, namespace {prefix or 'none'}, {where.strip() or 'states apart'}"
                tally.check(f"{what}: it synchronises", done.returncode == 0, done.stderr[-600:])
                tally.same("it is carried over", account.move(), [0, 0, 0])
                if account.program:
                    tally.same("the first run has nothing to do", account.run("all"), lines_of_run(account, {}))
                between.stop()


def without_a_state(tally):
    """A mailbox whose state cannot be carried over is started over first."""
    for where in PLACES[:2]:
        with Account(("INBOX", "a"), CHANNEL % "*", where) as account:
            if not account.program:
                tally.skip("a mailbox without a state", "mbsync is not built")
                return
            state = account.path("mail/a/.mbsyncstate" if where else ".mbsync/:far:a_:near:a")
            with open(state, "a", encoding="ascii") as file:
                file.write("3 0 ~\n")
            account.write("mail/a/new/1.unsent", FOUR.replace(b"\r\n", b"\n"))
            account.convert()
            told = account.convert("--switch")
            tally.check("a message that has expired", told[0] == 2 and "a message expired" in told[-1], told)
            known = account.words([], True)
            known["args"] = [START_OVER, "-c", account.path(".mbsyncrc.from-isync"), "--mbsync", account.program, "all:a"]
            done = subprocess.run(**known, capture_output=True, timeout=120, check=False)
            tally.check("it is started over", done.returncode == 0, done)
            tally.same("then the switch goes on", [account.convert("--switch")[0], account.run("all")],
                       [0, [0, "all:INBOX", "flags push 2 2 +F", "ran", "all:a", "new push 3 -> 3", "ran"]])
