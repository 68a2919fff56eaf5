"""The stores of the configurations that the scripts give to a synchroniser."""

# Further lines of a far store for isync, which goes over to TLS by itself if it is not told otherwise.
ISYNC_ONLY = "SSLType None\nAuthMechs LOGIN\n"


def imap_store(port, name="far", user="u", password="p", more=""):
    """A far store at this port of this machine, with further lines."""
    return f"IMAPStore {name}\nHost 127.0.0.1\nPort {port}\nUser {user}\nPass {password}\n{more}\n"


def maildir_store(path, inbox, name="near", more=""):
    """A near store at this path, with further lines."""
    return f"MaildirStore {name}\nPath {path}/\nInbox {inbox}\n{more}\n"


def configured(port, folder, channel, store=""):
    """A channel, given by its lines, between a server at this port and the mailboxes under a folder. `store` has further lines of the far
    store."""
    return imap_store(port, more=store) + maildir_store(folder, f"{folder}/INBOX") + channel
