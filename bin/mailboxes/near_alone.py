"""Which messages of a near mailbox that was moved aside are in none that the server has."""
from collections import Counter
from dataclasses import dataclass, field

from mailboxes.old_books import book_of, messages_in


@dataclass
class Sorted:
    """Messages that go back, those that were on both sides and have not come again, those that are marked as deleted and gone far, those
    whose flags have changed since the last run, with these, and how many were removed since."""
    back: list = field(default_factory=list)
    lost: list = field(default_factory=list)
    deleted: list = field(default_factory=list)
    flagged: list = field(default_factory=list)
    removed: int = 0


def digests_at_server(folder):
    """What the messages are that the first run has brought: those of the entries that it made."""
    book = book_of(folder)
    return Counter(message.digest() for message in messages_in(folder) if message.uid in book.far)


def take(found, message):
    """Whether a message is one of these, which is then taken out."""
    digest = message.digest()
    found[digest] -= 1
    return found[digest] >= 0


def sort(aside, folder, lost_from=None):
    """Sorts the messages that were moved aside, by their state and journal, and by what has come from the server since. A message that no
    entry names goes back unless the server has it: an interrupted run may have copied it without knowing."""
    book, found, sorted_ = book_of(aside), digests_at_server(folder), Sorted()
    messages = messages_in(aside)
    paired = [message for message in messages if message.uid in book.far]
    sorted_.removed = len(set(book.far) - {message.uid for message in messages})
    for message in paired:
        if message.letters != book.flags.get(message.uid, message.letters):
            sorted_.flagged.append((message, book.flags[message.uid]))
        if not take(found, message):
            is_wanted = lost_from is not None and book.far[message.uid] >= lost_from
            (sorted_.back if is_wanted else sorted_.lost).append(message)
    for message in messages:
        if message.uid in book.far:
            continue
        if message.uid in book.half and "T" in message.letters:
            sorted_.deleted.append(message)
        elif not message.uid or not take(found, message):
            sorted_.back.append(message)
    return sorted_
