#!/usr/bin/env python3
"""Carries configurations and states of isync over with bin/mbsync-from-isync, and looks what mbsync makes of them.

What has to be written and printed stands here by hand. Where the programs are built, an account that was synchronised is given isync's
files in place of its own, converted and put in place: the next run has to have nothing to do, and the run after a change just that."""
import os
import pathlib
import re
import shutil
import sys
import tempfile

sys.path.insert(0, str(pathlib.Path(__file__).resolve().parents[1]))
from tests.scenes import isync_accounts
from tests.support import trial_imapd
from tests.support.converted import convert
from tests.support.places import MBSYNC
from tests.support.scene import ONE, TWO, Scene
from tests.support.scripted_server import ScriptedServer
from tests.support.tally import Tally

HEAD = "# Made from isync's configuration by mbsync-from-isync."
ACCOUNT = "IMAPAccount work\nHost imap.example.org\nUser me@example.org\nPassCmd \"pass mail/work\"\nSSLType IMAPS\n\n"
STORES = ACCOUNT + "IMAPStore far\nAccount work\n\nMaildirStore near\nSubFolders Verbatim\nPath ~/mail/\nInbox ~/mail/INBOX\n\n"
MADE_STORES = """\
IMAPStore far
# The end of a tunnel to imap.example.org, port 993, which has to be started first (mbsync(1), TLS and passwords).
Host 127.0.0.1
Port 1143
User me@example.org
# write: Pass PASSWORD (isync asked a command, a keychain or a person)

MaildirStore near
Path ~/mail/
Inbox ~/mail/INBOX

"""
PLAIN = "IMAPStore far\nHost 127.0.0.1\nPort %d\nUser u\nPass p\nSSLType None\nAuthMechs LOGIN\n\nMaildirStore near\nPath ~/mail/\nInbox ~/inbox\n\n"
STATE = "FarUidValidity 1\nNearUidValidity 1447\nMaxPulledUid 7\nMaxPushedUid 4\n\n5 3 SF\n1 1 \n7 0 S\n0 9 \n"
MADE_STATE = "mbsync state 1\nrun 1\nfar 1 7\nnear 1447 4\ne 0 9 -\ne 1 1 -\ne 5 3 FS\ne 7 0 S\nend\n"


ACCOUNTS = ("whole_accounts", "inbox_below_path", "excluded", "single_mailboxes", "without_asking", "two_folders", "renamed_before",
            "run_too_early", "killed_switch", "by_isync_itself", "without_a_state")


class Home:
    """A home folder of somebody who used isync."""

    def __init__(self, text):
        self.top = tempfile.mkdtemp(prefix="from-isync-")
        self.write(".mbsyncrc", text)

    def __enter__(self):
        return self

    def __exit__(self, *_):
        shutil.rmtree(self.top)

    def path(self, name):
        return os.path.join(self.top, name)

    def write(self, name, text):
        os.makedirs(os.path.dirname(self.path(name)), exist_ok=True)
        with open(self.path(name), "w", encoding="ascii") as file:
            file.write(text)

    def read(self, name):
        with open(self.path(name), encoding="ascii") as file:
            return file.read()

    def mailbox(self, name, *files):
        for part in ("cur", "new", "tmp"):
            os.makedirs(self.path(f"{name}/{part}"), exist_ok=True)
        for file in files:
            self.write(f"{name}/cur/{file}", "a\n")

    def convert(self, *words):
        return convert(self.top, *words)

    def complete(self, port):
        """Completes the new configuration for a server at this port."""
        text = self.read(".mbsyncrc.from-isync").replace("Port 1143\nUser me@example.org\n", f"Port {port}\nUser u\nPass p\n")
        self.write(".mbsyncrc.from-isync", text)


# ---- configurations

def a_configuration(tally):
    text = STORES + ("Channel work\nMaster :far:\nSlave :near:\nPatterns a* !Spam\nCreate Slave\nSync All\nMaxMessages 0\n\n"
                     "Channel in\nFar :far:INBOX\nNear :near:INBOX\nSyncState *\nExpunge Both\n\nGroup all work in\n")
    with Home("CopyArrivalDate yes\nExpunge None\n\n" + text) as home:
        notes = ["  line 1: CopyArrivalDate is left out: dates of arrival are not copied",
                 "  IMAPAccount work: start a tunnel from 127.0.0.1:1143 to imap.example.org:993",
                 "  IMAPStore far: write its Pass, and keep the file private", "  line 24: MaxMessages is left out: no message expires"]
        tally.same("what is printed", home.convert(), [0, "~/.mbsyncrc.from-isync", *notes])
        channels = ("Channel work\nFar :far:\nNear :near:\nPatterns a* !Spam\nCreate Near\nSync Full\n\n"
                    "Channel in\nFar :far:INBOX\nNear :near:INBOX\nExpunge Both\n\nGroup all work in\n")
        tally.same("what is written", home.read(".mbsyncrc.from-isync"), f"{HEAD}\nExpunge None\nSyncState *\n\n{MADE_STORES}{channels}")
        tally.same("for its owner alone", oct(os.stat(home.path(".mbsyncrc.from-isync")).st_mode & 0o777), "0o600")
        tally.same("isync's stands as it was", home.read(".mbsyncrc"), "CopyArrivalDate yes\nExpunge None\n\n" + text)


def a_connection_without_tls(tally):
    with Home(PLAIN % 1143) as home:
        tally.same("it stays as it was", home.convert()[:2], [0, "~/.mbsyncrc.from-isync"])
        tally.check("Host and Port", "IMAPStore far\nHost 127.0.0.1\nPort 1143\nUser u\nPass p\n" in home.read(".mbsyncrc.from-isync"))


def what_cannot_be_carried_over(tally):
    for what, text, why in (
        ("Maildir++", STORES.replace("Verbatim", "Maildir++"), "MaildirStore near is left out: its SubFolders are maildir++"),
        ("AltMap", STORES.replace("SubFolders Verbatim", "AltMap yes"), "MaildirStore near is left out: with AltMap"),
        ("a Path of an IMAP store", STORES.replace("Account work", "Account work\nPath INBOX."), "IMAPStore far is left out: its Path"),
        ("a tunnel", STORES.replace("SSLType IMAPS", "Tunnel \"ssh host imapd\""), "IMAPStore far is left out: start its Tunnel yourself"),
        ("sides that change places", STORES + "Channel c\nFar :near:\nNear :far:\n", "Channel c is left out: its Far is no IMAPStore"),
        ("a prefix", STORES + "Channel c\nFar :far:x/\nNear :near:x/\nPatterns *\n", "Channel c is left out: with Patterns"),
        ("a mailbox in a group", STORES + "Group g c:a,b\n", "Group g is left out: CHANNEL:BOX"),
        ("an unknown keyword", STORES + "Channel c\nFar :far:\nNear :near:\nNope 1\n", "Channel c is left out: line 18: Nope cannot"),
    ):
        with Home(text) as home:
            got = home.convert()
            tally.check(f"{what} is named", got[0] == 1 and any(line.startswith("  " + why) for line in got[1:]), got)
    with Home('Channel "c\n') as home:
        tally.same("an open quote", home.convert(), [2, "mbsync-from-isync: line 1: a quote is not closed"])
    with Home("") as home:
        os.remove(home.path(".mbsyncrc"))
        tally.same("no configuration", home.convert(), [2, "mbsync-from-isync: no configuration of isync is there; name it"])


# ---- states

def states(tally):
    server = ScriptedServer(name="a/b")
    channel = "Channel c\nFar :far:\nNear :near:\nPatterns * !no\n"
    for what, name, more in (
        ("in the state folder", ".mbsync/:far:a!b_:near:a!b", ""),
        ("in the newer one", ".local/state/isync/:far:a!b_:near:a!b", ""),
        ("in the mailbox", "mail/a/b/.mbsyncstate", "SyncState *\n"),
        ("in a folder of the channel", "s/x-a!b", "SyncState ~/s/x-\n"),
    ):
        with Home(STORES + channel + more) as home:
            home.mailbox("mail/a/b", "m,U=3:2,FS")
            home.mailbox("mail/no", "m,U=3:2,FS")
            home.write(name, STATE)
            got = home.convert()
            tally.check(f"a state {what}", got[:3] == [0, "~/.mbsyncrc.from-isync", "~/mail/a/b/.mbsyncstate.from-isync"], got)
            tally.same("what it says", home.read("mail/a/b/.mbsyncstate.from-isync"), MADE_STATE)
            home.complete(server.port)
            tally.same("it is put in place", home.convert("--switch"), [0, "~/mail/a/b/.mbsyncstate", "~/.mbsyncrc"])
            tally.same("isync's configuration is kept", home.read(".mbsyncrc.isync"), STORES + channel + more)
            tally.same("and its state", home.read(name + (".isync" if more == "SyncState *\n" else "")), STATE)


def states_that_are_refused(tally):
    channel = "Channel c\nFar :far:\nNear :near:\nPatterns *\nSyncState *\n"
    for what, text, why in (
        ("an expired message", STATE + "6 0 ~\n", "a message expired, has a placeholder or is in flight"),
        ("a placeholder", STATE + "6 4 >S\n", "a message expired, has a placeholder or is in flight"),
        ("one UID twice", STATE + "5 4 \n", "two entries have one UID"),
        ("no UIDVALIDITY", STATE.replace("NearUidValidity 1447\n", ""), "it has no UIDVALIDITY of both sides"),
        ("a state of mbsync", MADE_STATE, "it is mbsync's already"),
        ("none", None, None),
    ):
        with Home(STORES + channel) as home:
            home.mailbox("mail/a", "m,U=3:2,FS")
            if text:
                home.write("mail/a/.mbsyncstate", text)
            got = home.convert()
            line = f"  ~/mail/a: the state ~/mail/a/.mbsyncstate is not carried over: {why}" if text else "  ~/mail/a: isync's state was not found"
            tally.check(f"{what}: named", got[0] == 1 and got[-1].startswith(line), got)
            tally.same(f"{what}: nothing is put in place", [home.convert("--switch")[:2], os.path.exists(home.path(".mbsyncrc.isync"))],
                       [[2, "mbsync-from-isync: nothing was changed, since"], False])
    with Home(STORES + channel) as home:
        home.mailbox("mail/a", "m,U=3:2,FS")
        home.write("mail/a/.mbsyncstate", STATE)
        home.write("mail/a/.mbsyncstate.journal", "2\n")
        tally.check("a run that isync has not finished", home.convert()[-1].endswith("isync has not finished its last run; let it run once more"))


# ---- over the programs

def isync_state(text):
    """This state as isync writes it."""
    head = re.search(r"^far (\d+) (\d+)\nnear (\d+) (\d+)\n", text, re.MULTILINE)
    lines = [f"FarUidValidity {head[1]}", f"NearUidValidity {head[3]}", f"MaxPulledUid {head[2]}", f"MaxPushedUid {head[4]}", ""]
    return "\n".join(lines + [f"{f} {n} {flags.replace('-', '')}" for f, n, flags in re.findall(r"^e (\d+) (\d+) (\S+)", text, re.MULTILINE)]) + "\n"


def the_next_run(tally):
    with Scene(ONE, TWO) as scene:
        scene.run("c")
        with open(scene.path("inbox/.mbsyncstate"), encoding="ascii") as file:
            scene.write(".mbsync/:far:INBOX_:near:INBOX", isync_state(file.read()).encode())
        os.remove(scene.path("inbox/.mbsyncstate"))
        before = [scene.near_messages(), scene.far_messages()]
        scene.configure(PLAIN % scene.server.port + "Channel c\nFar :far:INBOX\nNear :near:INBOX\n")
        tally.same("it is carried over", convert(scene.home)[:3], [0, "~/.mbsyncrc.from-isync", "~/inbox/.mbsyncstate.from-isync"])
        tally.same("its mailboxes", scene.run("-c", scene.path(".mbsyncrc.from-isync"), "-l", "-a"), [0, "c:INBOX"])
        tally.same("it is put in place", convert(scene.home, "--switch"), [0, "~/inbox/.mbsyncstate", "~/.mbsyncrc"])
        tally.same("the next run has nothing to do", scene.run("c"), [0, "c:INBOX", "ran"])
        tally.same("both sides stand", [scene.near_messages(), scene.far_messages()], before)
        scene.near().set_flags(2, "", "S")
        tally.same("the run after a change does it", scene.run("c"), [0, "c:INBOX", "flags push 2 2 +S", "ran"])


def main():
    scenes = [a_configuration, a_connection_without_tls, what_cannot_be_carried_over, states, states_that_are_refused,
              *(getattr(isync_accounts, name) for name in ACCOUNTS)]
    if os.access(MBSYNC, os.X_OK):
        trial_imapd.build()
        Scene.program = MBSYNC
        scenes.append(the_next_run)
    else:
        print("skipped: the_next_run, since mbsync is not built")
    Tally().play(scenes, sys.argv[1:])


if __name__ == "__main__":
    main()
