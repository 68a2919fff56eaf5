"""Names of mailboxes as isync and as mbsync have them, and patterns.

isync's name has / between its parts, is in UTF-8 (1.5) or in modified UTF-7 (up to 1.4), and has no namespace of the server in front.
mbsync takes the name that the server lists. Here a name is `plain` if it is isync's in letters, and `written` if it is mbsync's."""
import base64
import binascii
import re
from dataclasses import dataclass

from mailboxes.near_folders import Refused


@dataclass
class ServerNames:
    """What a server puts between the parts of names, and in front of all but INBOX."""
    delimiter: str = "/"
    prefix: str = ""


def encoded(name):
    """A name in modified UTF-7."""
    def shifted(found):
        if found[0] == "&":
            return "&-"
        return "&" + base64.b64encode(found[0].encode("utf-16-be")).decode().rstrip("=").replace("/", ",") + "-"
    try:
        return re.sub("&|[^ -~]+", shifted, name)
    except UnicodeEncodeError as error:
        raise Refused(f"the name {name!r} is not UTF-8; rename it") from error


def is_utf8(name):
    """Whether a name that was read of a disk is UTF-8."""
    return not any("\ud800" <= char <= "\udfff" for char in name)


def decoded(name):
    """The letters of a name in modified UTF-7, or none if it is no such name."""
    def letters(found):
        if not found[1]:
            return "&"
        text = found[1].replace(",", "/")
        return base64.b64decode(text + "=" * (-len(text) % 4), validate=True).decode("utf-16-be")
    try:
        found = re.sub("&([A-Za-z0-9+,]*)-", letters, name)
        return found if encoded(found) == name else None
    except (binascii.Error, UnicodeDecodeError, Refused):
        return None


def in_letters(name):
    """A name in letters, whichever of the two spellings it has."""
    found = decoded(name)
    return name if found is None else found


def is_inbox_or_below(name):
    return name == "INBOX" or name.startswith("INBOX/")


def plain(name, names):
    """isync's name of what isync, or mbsync, calls so."""
    if names.delimiter != "/" and names.delimiter in name and "/" not in name:
        name = name.removeprefix(names.prefix).replace(names.delimiter, "/")
    elif names.delimiter == "/" and names.prefix and name != "INBOX":
        name = name.removeprefix(names.prefix)
    return in_letters(name)


def written(name, names):
    """mbsync's name of what isync calls so."""
    prefix = "" if is_inbox_or_below(name) else names.prefix
    return prefix + encoded(name).replace("/", names.delimiter)


def written_pattern(word, names):
    """mbsync's pattern of one of isync."""
    sign, word = ("!", word[1:]) if word.startswith("!") else ("", word)
    return sign + written(in_letters(word), names)


def matches(word, name):
    spelled = "".join(".*" if char == "*" else "[^/]*" if char == "%" else re.escape(char) for char in word)
    return re.fullmatch(spelled, name, re.DOTALL)


def chosen_by_isync(patterns, name):
    """Whether isync's patterns choose a mailbox: the last one that matches decides."""
    found = [word for word in patterns if matches(in_letters(word.removeprefix("!")), name)]
    return bool(found) and not found[-1].startswith("!")


def chosen_here(patterns, name):
    """Whether mbsync's patterns do: INBOX is matched by the word INBOX alone."""
    found = [word for word in patterns
             if (word.removeprefix("!") == "INBOX" if name == "INBOX" else matches(word.removeprefix("!"), name))]
    return bool(found) and not found[-1].startswith("!")
