"""Near mailboxes as folders: their own files, which are moved and written so that a kill at any moment leaves nothing half done."""
import contextlib
import errno
import fcntl
import os

STATE, META = ".mbsyncstate", ".uidvalidity"
LOCK = STATE + ".lock"
PARTS = ("tmp", "new", "cur")


class Refused(Exception):
    """Why something is not done."""


def reason(why):
    """Why something is not done, as it is printed."""
    return f"{why.filename}: {why.strerror}" if isinstance(why, OSError) and why.filename else str(why)


def expanded(path):
    """A path with the home folder in place of a leading ~."""
    return os.path.join(os.path.expanduser("~"), path[2:]) if path.startswith("~/") else path


def is_mailbox(folder):
    """Whether a mailbox is there, or what is left of one that was being moved."""
    return any(os.path.isdir(os.path.join(folder, part)) for part in ("cur", "new"))


def is_same(path, other):
    """Whether the same file or folder is at both paths."""
    return os.path.exists(path) and os.path.exists(other) and os.path.samefile(path, other)


def own_names(folder):
    """The names of a mailbox's own files and folders, in the order in which they are moved. Mailboxes below it, and the lock, are none."""
    names = os.listdir(folder) if os.path.isdir(folder) else []
    texts = sorted(name for name in names if name.startswith((STATE, META)) and name != LOCK)
    return texts + [part for part in PARTS if part in names]


# ---- on the disk

def sync(path):
    """Has the disk keep a folder's names, or a file."""
    at = os.open(path, os.O_RDONLY)
    try:
        os.fsync(at)
    except OSError as error:
        # A file system may be unable to.
        if error.errno != errno.EINVAL:
            raise
    finally:
        os.close(at)


def sync_names(folder):
    """Syncs the names of a mailbox's messages: mbsync takes those that a state names as synced."""
    for place in filter(os.path.isdir, (os.path.join(folder, "cur"), os.path.join(folder, "new"), folder)):
        sync(place)


def write(path, text):
    """Writes a new file for its owner alone, at once or not at all."""
    part = path + ".part"
    with open(os.open(part, os.O_WRONLY | os.O_CREAT | os.O_TRUNC, 0o600), "w", encoding="ascii") as file:
        file.write(text)
        file.flush()
        os.fsync(file.fileno())
    os.replace(part, path)
    sync(os.path.dirname(path) or ".")


def move_own(old, new):
    """Moves a mailbox's own files from one folder into another, where a killed call has left them."""
    os.makedirs(new, mode=0o700, exist_ok=True)
    names = own_names(old)
    taken = [name for name in names if os.path.lexists(os.path.join(new, name))]
    if taken:
        raise Refused(f"{os.path.join(old, taken[0])} and {os.path.join(new, taken[0])} are both there; move one of them elsewhere")
    for name in names:
        os.rename(os.path.join(old, name), os.path.join(new, name))
    sync(new)
    sync(old)


def move_mailbox(old, new):
    """Moves a mailbox, and none below it, to another folder: at once where that folder is empty, and nothing else is in its own."""
    os.makedirs(new, mode=0o700, exist_ok=True)
    if not os.listdir(new) and set(os.listdir(old)) <= {*own_names(old), LOCK}:
        os.rename(old, new)
        sync(os.path.dirname(new))
        sync(os.path.dirname(old))
    else:
        move_own(old, new)
        remove_if_empty(old)


def remove_if_empty(folder):
    with contextlib.suppress(OSError):
        os.rmdir(folder)


# ---- the lock

@contextlib.contextmanager
def locked(folder):
    """Holds the lock that mbsync takes of a near mailbox."""
    at = os.open(os.path.join(folder, LOCK), os.O_RDWR | os.O_CREAT | os.O_NOFOLLOW, 0o600)
    try:
        try:
            fcntl.flock(at, fcntl.LOCK_EX | fcntl.LOCK_NB)
        except OSError as error:
            raise Refused(f"mbsync is at work in {folder}; wait until it has ended (a killed process holds no lock)") from error
        yield
    finally:
        os.close(at)
