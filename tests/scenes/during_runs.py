"""The scenes of stale.py in which a person puts back or undeletes messages while a run is at work."""
import os

from tests.support.edge_scene import far, near
from tests.support.scene import ONE, TWO, near_text
from tests.support.scripted_server import LISTING
from tests.support.stale_scene import LOOK_SECONDS, Stale, all_far, all_near, names, numbered, says, told_of

CLEAN = [0, "c:INBOX", "ran"]
TEN = numbered(10)


def lists(command):
    """Whether a command lists the mailbox."""
    return command.asks(LISTING)


def runs(scene, count):
    """What the last of so many runs prints."""
    return [scene.run("c") for _ in range(count)][-1]


def undeleted_near(tally):
    """A message that is marked as deleted near is undeleted there: where the far mailbox is listed, where the mark is carried over, and
    where it is expunged."""
    for name, when in (("the listing", lists), ("the mark", says(b"UID STORE"))):
        with Stale(ONE, TWO) as scene:
            scene.mark_near(1, "T")
            path = scene.path_of(1)
            told = scene.meanwhile("c", when=when, do=lambda scene=scene: scene.mark_near(1, ""), pause=LOOK_SECONDS)
            tally.check(f"undeleted near at {name}: nothing is removed", [sorted(it) for it in scene.sides()] == [[1, 2], [1, 2]], told)
            if told[0] != 0:
                tally.check("the run names it", told_of(told, path.rpartition(":")[0]), told)
            tally.same("after further runs both are kept, without a mark", [runs(scene, 3), *scene.sides()], [CLEAN, near(ONE, TWO), far(ONE, TWO)])


def undeleted_at_the_expunge(tally):
    """The same behind the last look: where the expunge goes out. The server has removed the message then, but the folder keeps it."""
    with Stale(ONE, TWO) as scene:
        scene.mark_near(1, "T")
        scene.meanwhile("c", when=says(b"UID EXPUNGE"), do=lambda: scene.mark_near(1, ""))
        tally.same("undeleted near as the server expunges it: it stays near", sorted(scene.near_messages()), [1, 2])
        told = runs(scene, 4)
        tally.same("it stays for good", [told, scene.near_messages().get(1)], [CLEAN, ("", near_text(ONE))])


def undeleted_far(tally):
    """A message that is marked as deleted near is undeleted at the server, as its expunge comes there."""
    for expunge in ("Both", "Far"):
        with Stale(ONE, TWO, expunge=expunge) as scene:
            scene.mark_near(1, "T")
            told = scene.meanwhile("c", when=says(b"UID EXPUNGE"), do=lambda scene=scene: scene.mark_far(1, ""))
            tally.same(f"Expunge {expunge}: undeleted at the server, nothing is removed", [sorted(it) for it in scene.sides()], [[1, 2], [1, 2]])
            if expunge == "Both":
                tally.check("the run names the UID", told_of(told, "UID 1"), told)
            tally.same("after further runs it is kept on both sides", [runs(scene, 3), *scene.sides()], [CLEAN, near(ONE, TWO), far(ONE, TWO)])


def many_undeleted_far(tally):
    """Ten messages are marked as deleted near, and three of them are undeleted at the server before they are expunged."""
    with Stale(*TEN) as scene:
        for uid in range(1, 11):
            scene.mark_near(uid, "T")

        def undelete():
            for uid in (4, 7, 10):
                scene.mark_far(uid, "")

        scene.meanwhile("c", when=says(b"UID EXPUNGE", count=2), do=undelete)
        tally.same("undeleted at the server, they stay near", [uid for uid in (4, 7, 10) if uid not in scene.near_messages()], [])
        told, kept = runs(scene, 4), {4: "", 7: "", 10: ""}
        tally.same("after further runs these three are kept on both sides, and no other",
                   [told, *({uid: flags for uid, (flags, _) in it.items()} for it in scene.sides())], [CLEAN, kept, kept])


def put_back(tally):
    """Five of ten files are away by mistake, and are put back while a run marks their messages at the server."""
    for count in (1, 3):
        with Stale(*TEN) as scene:
            moved = scene.take_away(1, 2, 3, 4, 5)
            told = scene.meanwhile("c", when=says(b"UID STORE", count=count), do=lambda scene=scene, moved=moved: scene.put_back(moved),
                                   pause=LOOK_SECONDS)
            tally.same(f"put back at mark {count}: nothing is removed", [sorted(it) for it in scene.sides()], [[*range(1, 11)]] * 2)
            tally.check("the run stops, and names a file", told[0] == 1 and any(told_of(told, path) for _, path in moved), told)
            tally.same("after further runs all are kept, without a mark", [runs(scene, 3), *scene.sides()], [CLEAN, all_near(TEN), all_far(TEN)])


def put_back_between_expunges(tally):
    """Five of ten files are away, and are put back where the second message is expunged at the server."""
    with Stale(*TEN) as scene:
        moved = scene.take_away(1, 2, 3, 4, 5)
        scene.meanwhile("c", when=says(b"UID EXPUNGE", count=2), do=lambda: scene.put_back(moved), pause=LOOK_SECONDS)
        tally.same("put back at the second expunge: the server keeps the rest", sorted(scene.far_messages()), [*range(3, 11)])
        told = runs(scene, 4)
        tally.same("the folder keeps all", [told, sorted(scene.near_messages())], [CLEAN, [*range(1, 11)]])
        tally.same("and no mark is left", [{flags for flags, _ in it.values()} for it in scene.sides()], [{""}, {""}])


def gone_far(tally):
    """A message is removed at the server; the run marks the near one, which is undeleted before it is expunged. Other steps come between."""
    with Stale(ONE, TWO) as scene:
        del scene.inbox().messages[1]
        scene.mark_near(2, "T")
        told = scene.meanwhile("c", when=says(b"UID EXPUNGE"), do=lambda: scene.mark_near(1, ""), pause=LOOK_SECONDS)
        tally.check("what the server lacks is undeleted near: it stays there", 1 in scene.near_messages(), told)
        tally.same("it stays for good", [runs(scene, 4), scene.near_messages().get(1)], [CLEAN, ("", near_text(ONE))])


def undeleted_far_and_gone(tally):
    """A file is removed near; its message is marked at the server, and undeleted there before the expunge. Another one is removed whole."""
    with Stale(ONE, TWO, *numbered(1)) as scene:
        scene.take_away(1)
        scene.mark_near(2, "T")
        scene.meanwhile("c", when=names(b"UID EXPUNGE", 1), do=lambda: scene.mark_far(1, ""))
        tally.same("undeleted at the server, it stays there", 1 in scene.far_messages(), True)
        told = runs(scene, 4)
        tally.same("it stays for good, and the other one is removed", [told, scene.far_messages()], [CLEAN, {1: ("", ONE), 3: ("", numbered(1)[0])}])


def removed_near(tally):
    """A file is marked as deleted, and takes another name each time that the run is to remove it: no other file is removed."""
    with Stale(ONE, TWO) as scene:
        scene.mark_near(1, "T")

        def undelete():
            os.rename(scene.path_of(1), scene.path("inbox/cur/other,U=1:2,S"))

        scene.meanwhile("c", when=says(b"UID EXPUNGE"), do=undelete)
        tally.same("a file with another name and without a mark stays", scene.near_messages().get(1), ("S", near_text(ONE)))
        tally.same("the other message is as it was", [scene.near_messages()[2], scene.far_messages()[2]], [("", near_text(TWO)), ("", TWO)])


def flags_of_a_kept_message(tally):
    """A message gets a flag near while the mark of another one is carried over: the flag is kept."""
    with Stale(ONE, TWO) as scene:
        scene.mark_near(1, "T")
        scene.meanwhile("c", when=names(b"UID STORE", 1), do=lambda: scene.mark_near(2, "F"))
        told = runs(scene, 2)
        tally.same("the flag is carried over, the other message removed", [told, *scene.sides()],
                   [CLEAN, {2: ("F", near_text(TWO))}, {2: ("F", TWO)}])


SCENES = [undeleted_near, undeleted_at_the_expunge, undeleted_far, many_undeleted_far, put_back, put_back_between_expunges, gone_far, undeleted_far_and_gone,
          removed_near, flags_of_a_kept_message]
