"""The scenes of stale.py in which the names of near files have odd tails."""
import os

from tests.support.edge_scene import FOUR, THREE, far, near
from tests.support.scene import MARK, ONE, TWO, near_text
from tests.support.stale_scene import Stale, told_of

CLEAN = [0, "c:INBOX", "ran"]
# What stands behind `,U=N` in the name of a message that the state knows, as a hand, an editor or a backup leaves it.
TAILS = (":2,SF", ":2,SS", ":2,S,", ":1,S", ":2S", ":", ":2,S~", ":2,S.bak", ":2,S1", ":3,S", ":2,S ", ":2,S:2,S", ":S", ":2,S-", ":2,S.orig")
# Tails behind which the name is that of a file without a UID: a new message.
UNNUMBERED = (",S=100:2,S", ".bak:2,S", ".bak", "~", " (1)")
# What other programs make of a name whose file they hide, or are still writing.
HIDDEN = (".%s", ".%s.Xy12Ab", ".syncthing.%s.tmp", "._%s")
# A name with the UID that a message had in another mailbox.
OF_OFFLINEIMAP = "1387368339_0.9034.host,U=2,FMD5=7e33429f656f1e6e9d79b29c3f82c57e"
# Names in `cur` that are those of no Maildir message, and in `new`.
NO_NAMES = ("17.one:1,S", "18.two:2S", "19.three:", "20.four:2,SF")


def renamed(scene, uid, tail):
    """Gives the near message of this UID an odd tail; gives its old and its new path."""
    path = scene.path_of(uid)
    odd = path.partition(f",U={uid}")[0] + f",U={uid}{tail}"
    os.rename(path, odd)
    return path, odd


def bodies(messages):
    """The bytes of messages, in order."""
    return sorted(data for _, data in messages.values())


def odd_tails(tally):
    """The file of a message that was synchronised gets an odd tail."""
    for tail in TAILS:
        with Stale(ONE, TWO) as scene:
            path, odd = renamed(scene, 1, tail)
            for _ in range(2):
                told = scene.run("c")
                tally.check(f"the tail {tail!r}: the run stops and names the file", told[0] == 1 and told_of(told, odd), told)
                tally.same("nothing is marked or removed", [scene.far_messages(), os.path.exists(odd)], [far(ONE, TWO), True])
            os.rename(odd, path)
            tally.same("with its old name it is taken", [scene.run("c"), *scene.sides()], [CLEAN, near(ONE, TWO), far(ONE, TWO)])


def files_of(scene):
    """The bytes of each file in `new` and `cur`, by its path, whatever its name."""
    found = {}
    for part in ("new", "cur"):
        for name in os.listdir(scene.path("inbox/" + part)):
            path = scene.path(f"inbox/{part}/{name}")
            with open(path, "rb") as file:
                found[path] = MARK.sub(b"", file.read())
    return found


def odd_tail_of_a_marked_one(tally):
    """The same, of a message that is marked as deleted at the server: its file is not touched, under whatever name."""
    for tail in (":2,TS", ":2,T~", "~"):
        with Stale(ONE, TWO) as scene:
            scene.mark_far(1, "T")
            renamed(scene, 1, tail)
            told = scene.run("c")
            tally.check(f"marked at the server, with the tail {tail!r} near: the file stays", near_text(ONE) in files_of(scene).values(), told)


def tails_without_a_uid(tally):
    """The name is that of a new file, though the UID of a known message stands in it: its content is kept on both sides, and where the run
    stops, its old name mends it."""
    for tail in UNNUMBERED:
        with Stale(ONE, TWO) as scene:
            path, _ = renamed(scene, 1, tail)
            told = [scene.run("c") for _ in range(3)]
            tally.check(f"the tail {tail!r}: the content is kept on both sides",
                        near_text(ONE) in files_of(scene).values() and ONE in bodies(scene.far_messages()), told)
            if told[-1][0] != 0:
                os.rename(next(it for it, data in files_of(scene).items() if data == near_text(ONE)), path)
                told = [scene.run("c") for _ in range(2)]
            tally.same("in the end each message is there once, on both sides",
                       [told[-1], bodies(scene.near_messages()), bodies(scene.far_messages())], [CLEAN, bodies(near(ONE, TWO)), bodies(far(ONE, TWO))])


def hidden_names(tally):
    """A name that begins with a dot is nobody's, as that of a file that another program is still writing: it is never said to be there."""
    for form in HIDDEN:
        with Stale(ONE, TWO) as scene:
            path = scene.path_of(1)
            hidden = os.path.join(os.path.dirname(path), form % os.path.basename(path))
            scene.write(os.path.relpath(hidden, scene.home), near_text(ONE))
            tally.same(f"{form}: beside its message it changes nothing", [scene.run("c"), scene.far_messages()], [CLEAN, far(ONE, TWO)])
            os.remove(path)
            told = scene.run("c")
            tally.same("the message can be removed", [told[0], sorted(scene.far_messages())], [0, [2]])
            tally.check("the hidden file stays", os.path.exists(hidden), told)


def uids_of_others(tally):
    """A file that OfflineIMAP named: its `,U=N` is not this mailbox's, and does not keep message N from being removed, be it pushed before
    or by the same run."""
    for together in (False, True):
        with Stale(ONE, TWO) as scene:
            scene.write(f"inbox/cur/{OF_OFFLINEIMAP}:2,S", near_text(THREE))
            if not together:
                told = scene.run("c")
                tally.same("it is a new message", [told, scene.sides()],
                           [[0, "c:INBOX", "new push 3 -> 3", "ran"], [{**near(ONE, TWO), 3: ("S", near_text(THREE))}, {**far(ONE, TWO), 3: ("S", THREE)}]])
            os.remove(scene.path_of(2))
            told = scene.run("c")
            tally.same(f"message 2 can be removed (together: {together})", [told[0], scene.sides()],
                       [0, [{**near(ONE), 3: ("S", near_text(THREE))}, {**far(ONE), 3: ("S", THREE)}]])
            tally.check("its file keeps its base", os.path.exists(scene.path(f"inbox/cur/{OF_OFFLINEIMAP},U=3:2,S")), told)
            tally.same("a further run has nothing to do", scene.run("c"), CLEAN)


def moved_to_new(tally):
    """A file is moved from `cur` to `new`, with and without its flags, and to another folder of the mailbox and back."""
    with Stale(ONE, TWO) as scene:
        path = scene.path_of(1)
        for there in (scene.path("inbox/new/" + os.path.basename(path)), scene.path("inbox/new/" + os.path.basename(path).partition(":")[0])):
            os.rename(path, there)
            tally.same("moved to `new`, it is still there", [scene.run("c"), *scene.sides()], [CLEAN, near(ONE, TWO), far(ONE, TWO)])
            os.rename(there, path)
        tally.same("and back", [scene.run("c"), *scene.sides()], [CLEAN, near(ONE, TWO), far(ONE, TWO)])


def two_files(tally):
    """A copy of a known file is made beside it under an odd tail, as an editor makes it: nothing is shut, and nothing is lost."""
    with Stale(ONE, TWO) as scene:
        path = scene.path_of(1)
        scene.write(os.path.relpath(path + "~", scene.home), near_text(ONE))
        told = scene.run("c")
        tally.same("a backup beside its file does not shut the mailbox", [told[0], scene.far_messages()], [0, far(ONE, TWO)])
        scene.mark_near(1, "T")
        told = [scene.run("c") for _ in range(3)]
        tally.same("the message can be removed all the same", [told[-1][0], sorted(scene.far_messages())], [0, [2]])


def waiting_files(tally):
    """Files that wait for a UID under a name that is none of Maildir, beside one that can be pushed."""
    with Stale(ONE) as scene:
        for name in NO_NAMES:
            scene.write(f"inbox/cur/{name}", near_text(THREE))
        scene.write("inbox/new/21.good", near_text(FOUR))
        for number in range(2):
            told = scene.run("c")
            paths = [scene.path(f"inbox/cur/{name}") for name in NO_NAMES]
            tally.same(f"each is told once a run ({number + 1})", [sum(path in line for line in told[1:]) for path in paths], [1] * len(NO_NAMES))
            tally.same("the rest is synchronised", bodies(scene.far_messages()), bodies(far(ONE, FOUR)))
        for number, name in enumerate(NO_NAMES):
            os.rename(scene.path(f"inbox/cur/{name}"), scene.path(f"inbox/cur/{30 + number}.good:2,S"))
        tally.same("under other names they are pushed", [scene.run("c")[0], len(scene.far_messages())], [0, 2 + len(NO_NAMES)])


def waiting_once(tally):
    """Such a file is told once in a run of two channels over its mailbox, and a hidden one never."""
    with Stale(ONE, more="\nChannel again\nFar :far:\nNear :near:\n") as scene:
        scene.write("inbox/cur/17.one:1,S", near_text(THREE))
        scene.write("inbox/cur/.hidden:1,S", near_text(THREE))
        told = scene.run("c", "again")
        tally.same("told once in a run of two channels", sum("17.one:1,S" in line for line in told[1:]), 1)
        tally.same("a hidden file is not told", sum(".hidden" in line for line in told[1:]), 0)


SCENES = [odd_tails, odd_tail_of_a_marked_one, tails_without_a_uid, hidden_names, uids_of_others, moved_to_new, two_files, waiting_files, waiting_once]
