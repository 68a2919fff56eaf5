"""Configurations of isync and of mbsync: sections of lines of words."""
import re
from dataclasses import dataclass, field

from mailboxes.near_folders import Refused, expanded

SECTIONS = {"imapaccount": "IMAPAccount", "imapstore": "IMAPStore", "maildirstore": "MaildirStore", "channel": "Channel", "group": "Group"}


@dataclass
class Section:
    """A section of a configuration; the lines before any are one without a name."""
    kind: str
    name: str
    more: list
    lines: list = field(default_factory=list)

    def last(self, *keywords):
        """The arguments of the last line with one of these keywords, or nothing."""
        found = [words for _, keyword, words in self.lines if keyword.lower() in keywords]
        return found[-1] if found else None

    def word(self, *keywords):
        words = self.last(*keywords)
        return words[0] if words else None

    def patterns(self):
        return [word for _, keyword, words in self.lines if keyword.lower() in ("pattern", "patterns") for word in words]

    def place(self, *keywords):
        """Store and mailbox of a side of a channel."""
        found = re.fullmatch(r":([^:]*):(.*)", self.word(*keywords) or "")
        if not found:
            raise Refused(f"it has no {keywords[0].capitalize()} :STORE:BOX")
        return found[1], found[2]

    def inbox(self):
        """The folder of INBOX of a Maildir store."""
        return expanded(self.word("inbox") or "~/Maildir")


def words_of(line, keeps=""):
    """The words of a line. A quote begins and ends a part with spaces; a backslash takes the next character as it is, if that is one of
    `keeps` or none are given."""
    words, word, quoted, escaped = [], None, False, False
    for char in line:
        if escaped:
            word, escaped = (word or "") + ("" if not keeps or char in keeps else "\\") + char, False
        elif char == "\\":
            escaped, word = True, word or ""
        elif char == '"':
            quoted, word = not quoted, word or ""
        elif char in " \t" and not quoted:
            words, word = words + ([] if word is None else [word]), None
        elif char == "#" and word is None and not words:
            return []
        else:
            word = (word or "") + char
    if quoted or escaped:
        raise Refused("a quote is not closed")
    return words + ([] if word is None else [word])


def sections_of(text, keeps=""):
    """The sections, of which the first holds the lines before any."""
    sections, current = [Section("", "", [])], None
    for number, line in enumerate(text.split("\n"), 1):
        line = line.rstrip("\r")
        if not line.strip():
            current = None
            continue
        try:
            words = words_of(line, keeps)
        except Refused as why:
            raise Refused(f"line {number}: {why}") from why
        if not words:
            continue
        keyword = words[0].lower()
        if current is None and keyword in SECTIONS:
            if len(words) < 2:
                raise Refused(f"line {number}: {words[0]} has no name")
            current = Section(SECTIONS[keyword], words[1], words[2:])
            sections.append(current)
        else:
            (current or sections[0]).lines.append((number, words[0], words[1:]))
    return sections


def read(path, keeps=""):
    """The sections of a file."""
    with open(path, encoding="utf-8", errors="surrogateescape") as file:
        return sections_of(file.read(), keeps)


def read_own(path):
    """The sections of a configuration of mbsync's, by kind and name."""
    try:
        return {(section.kind, section.name): section for section in read(path, '"\\')}
    except Refused as why:
        raise Refused(f"{path}: {why}") from why


def written_word(word):
    """An argument as mbsync reads it."""
    if not all(" " <= char <= "~" for char in word):
        raise Refused(f"{word!r} has characters that are not printable ASCII")
    if word and not re.search(r'[\s"\\]', word) and not word.startswith("#"):
        return word
    return '"' + word.replace("\\", "\\\\").replace('"', '\\"') + '"'


def line_of(keyword, *words):
    return " ".join([keyword, *map(written_word, words)])
