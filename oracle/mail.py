"""What a message is by docs/RULES.md: its lines, its content, its fitness and its flags; and how its bytes stand in a world
(docs/FORMATS.md). The models of this folder share this and nothing else of the rules."""
import re
from string import ascii_lowercase

SIX = "DFPRST"
LETTERS = SIX + ascii_lowercase
WAYS = ("Pull", "Push")
TYPES = ("New", "Gone", "Flags")
OTHER = {"far": "near", "near": "far"}
MOST = 16777216
ESCAPED = re.compile(r'[^ !#-\[\]-~]')
ESCAPE = re.compile(rb"\\([0-9a-f]{2})")


def lines_of(data):
    """The lines with their ends, LF for any CRs and LF; the last may have none."""
    parts = data.split(b"\n")
    return [part.rstrip(b"\r") + b"\n" for part in parts[:-1]] + [part for part in parts[-1:] if part]


def content(data):
    """The bytes of a message without the line ends of a store and without mark lines."""
    kept, in_header = [], True
    for line in lines_of(data):
        in_header = in_header and line != b"\n"
        if not (in_header and line.lower().startswith(b"x-tuid:")):
            kept.append(line)
    return b"".join(kept)


def far_length(data):
    """How long the content is with CR LF line ends."""
    text = content(data)
    return len(text) + text.count(b"\n")


def is_fit(side, data):
    """Whether a message of this side can be copied."""
    if side == "far":
        return len(data) <= MOST
    return 0 not in data and far_length(data) <= MOST


def escaped(data):
    """Bytes as a world has them between its quotes."""
    return ESCAPED.sub(lambda found: "\\%02x" % ord(found[0]), data.decode("latin-1"))


def unescaped(text):
    """The bytes that stand escaped between quotes, given as bytes."""
    return ESCAPE.sub(lambda found: bytes([int(found[1], 16)]), text)
