"""Where isync keeps its near mailboxes and their states, and what a state says."""
import fcntl
import os
import re

from mailboxes.box_names import encoded, is_utf8, plain, written
from mailboxes.near_folders import STATE, Refused, expanded, is_mailbox, is_same

NEW, OLD = ".from-isync", ".isync"
OWN_STATE = "mbsync state "
NO_STATES = (".journal", ".new", ".lock", OLD, NEW)


# ---- near mailboxes

def below(top, without):
    """The ways to the mailboxes below a folder, but not those below other folders."""
    found = []
    for folder, names, _ in os.walk(top):
        if folder != top and any(is_same(folder, other) for other in without):
            names[:] = []
        else:
            names[:] = sorted(name for name in names if name not in ("cur", "new", "tmp"))
            if folder != top and is_mailbox(folder):
                found.append(os.path.relpath(folder, top))
    return found


def folders_of(store, names):
    """The folders that each near mailbox of a store has, by isync's name in letters: where isync has it, or where mbsync has it."""
    path, inbox = expanded(store.word("path")), store.inbox()
    inner = path + "INBOX"
    places = [(path + way, plain(way, names)) for way in below(path, [inbox, inner])]
    if is_mailbox(inbox):
        places.append((inbox, "INBOX"))
    if not is_same(inbox, path):
        places += [(os.path.join(inbox, way), "INBOX/" + plain(way, names)) for way in below(inbox, [path])]
    if not is_same(inbox, inner):
        places += [(os.path.join(inner, way), plain("INBOX/" + way, names)) for way in below(inner, [inbox])]
    found = {}
    for folder, name in places:
        # A server has no name outside UTF-8.
        if is_utf8(name):
            found.setdefault(name, []).append(folder)
    return found


def new_folder(store, name, names, has_patterns):
    """Where mbsync has the near mailbox that isync calls so."""
    if name == "INBOX":
        return store.inbox()
    return expanded(store.word("path")) + (written(name, names) if has_patterns else encoded(name))


def has_synchronised(folder):
    """Whether a folder has a message that was synchronised."""
    places = [os.path.join(folder, part) for part in ("cur", "new")]
    return any(",U=" in name for place in places if os.path.isdir(place) for name in os.listdir(place))


# ---- states

def default_folder(where):
    """Where isync keeps states if a channel does not say it."""
    if where:
        return expanded(where)
    home = os.path.expanduser("~")
    state = os.environ.get("XDG_STATE_HOME") or os.path.join(home, ".local/state")
    places = [os.path.join(home, ".mbsync/"), os.path.join(state, "isync/")]
    return next((place for place in places if os.path.isdir(place)), places[0])


def states_behind(start, names):
    """The states whose paths begin so and go on with the near mailbox, whose / are !, by isync's name of it in letters."""
    found = {}
    for way, path in ways_behind(start):
        found.setdefault(plain(way, names), []).append(path)
    return found


def states_of_pairs(start, far_box, near, names):
    """The same where a path goes on with both stores and mailboxes: this far mailbox, or the one of the same name if none is given."""
    found = {}
    for way, path in ways_behind(start):
        far, middle, box = way.partition(f"_:{near}:")
        far, box = plain(far, names), plain(box, names)
        if middle and far == (far_box or box):
            found.setdefault(box, []).append(path)
    return found


def ways_behind(start):
    """How the paths of states that begin so go on, and these paths."""
    folder, head = os.path.split(start)
    files = sorted(os.listdir(folder)) if os.path.isdir(folder) else []
    return [(file[len(head):].replace("!", "/"), os.path.join(folder, file)) for file in files
            if file.startswith(head) and not file.endswith(NO_STATES)]


def state_in(folder):
    """Where isync's state is that was kept in a near mailbox; after --switch it has .isync at its end."""
    path = os.path.join(folder, STATE)
    return path + OLD if is_own(path) and os.path.isfile(path + OLD) else path


def is_own(path):
    """Whether a file is a state of mbsync's."""
    return os.path.isfile(path) and lines_of(path)[0].startswith(OWN_STATE)


def is_used(text):
    """Whether a state of mbsync's is one with which it has synchronised."""
    return not text.startswith("mbsync state 1\nrun 1\n")


def lines_of(path):
    with open(path, encoding="ascii", errors="surrogateescape") as file:
        return file.read().split("\n")


def is_locked(path):
    """Whether isync holds the lock of a state."""
    try:
        with open(path + ".lock", "r+b") as file:
            fcntl.lockf(file, fcntl.LOCK_EX | fcntl.LOCK_NB)
    except BlockingIOError:
        return True
    except OSError:
        # It is not there, or not ours to lock.
        return False
    return False


def state_of(path):
    """The state of mbsync that says what this one of isync says."""
    journal = path + ".journal"
    if is_locked(path):
        raise Refused("isync is at work; wait until it has ended")
    if os.path.exists(journal) and os.path.getsize(journal):
        raise Refused("isync has not finished its last run; let it run once more")
    lines = lines_of(path)
    if lines[0].startswith(OWN_STATE):
        raise Refused("it is mbsync's already")
    heads, entries = {}, []
    for line in filter(None, lines):
        words = line.split(" ")
        if re.fullmatch(r"[A-Za-z]+ \d+", line):
            heads[re.sub("Slave", "Near", re.sub("Master", "Far", words[0]))] = int(words[1])
        elif re.fullmatch(r"\d+ \d+( [DFPRST]*)?", line):
            entries.append((int(words[0]), int(words[1]), "".join(sorted(set(words[2] if len(words) > 2 else ""))) or "-"))
        else:
            raise Refused("a message expired, has a placeholder or is in flight; start over (mbsync(1))")
    if any(head.startswith("MaxExpired") and number for head, number in heads.items()):
        raise Refused("messages expired; start over (mbsync(1))")
    far, near = heads.get("FarUidValidity"), heads.get("NearUidValidity")
    if not far or not near:
        raise Refused("it has no UIDVALIDITY of both sides")
    return text_of(far, near, heads, [entry for entry in entries if entry[:2] != (0, 0)])


def text_of(far, near, heads, entries):
    for side in (0, 1):
        uids = [entry[side] for entry in entries if entry[side]]
        if len(uids) != len(set(uids)):
            raise Refused("two entries have one UID")
    lines = ["mbsync state 1", "run 1", f"far {far} {heads.get('MaxPulledUid', 0)}", f"near {near} {heads.get('MaxPushedUid', 0)}"]
    return "\n".join([*lines, *(f"e {f} {n} {flags}" for f, n, flags in sorted(entries)), "end", ""])
