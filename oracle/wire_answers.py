#!/usr/bin/env python3
"""What a reader of IMAP lines has to answer, decided slowly and apart from the program: every way to spell is tried.

`examples` prints the examples, which follow `script wire` in crates/tests_of_words/stdin, `answers` prints them with their answers, as in
crates/tests_of_words/stdout, and `check` looks whether these files have both.

An example is a line: C (a command) or R (a reply), a space, and the bytes as a world has them (docs/FORMATS.md), without
quotes around. Its answers follow that line: to the whole, to each of its beginnings, its places (a line feed outside
the octets of literals, a NUL among them), and, a line for each byte, to the bytes with that one changed to each of
CHANGES. With c or r instead of C or R, the whole alone is asked for: so are the lines of
real servers, from oracle/real-lines.txt. With b, a buffer of replies is asked, to which the bytes come in pieces of 1, 2 and 7
bytes, each size with a line of its own: what it answers, how many bytes it holds, and how many once those that were read are
dropped.

    w N  whole, of N bytes    a N  a literal of N octets is asked for    p  partial
    s N  a byte that no spelling goes on with, at N    t N  a literal's number passes its limit at N"""
import os
import pathlib
import re
import sys
from functools import partial

sys.path.insert(0, str(pathlib.Path(__file__).resolve().parents[1]))
from oracle.mail import escaped, unescaped
from tests.support.places import REAL_LINES, TESTS_OF_WORDS, parser_of
from tests.support.tally import Tally

CHANGES = b"\x00\n\r \"(*0:[\\]{az\x7f\xe9"
LITERAL_LIMIT, PLUS_LIMIT = 16777238, 4096
SPECIALS = b'(){%*"\\]'
ATOM = frozenset(b for b in range(33, 127) if b not in SPECIALS)
TEXT = frozenset(b for b in range(32, 256) if b != 127)
DIGITS = frozenset(b"0123456789")
OCTETS = frozenset(range(1, 256))
ALNUM = frozenset(b for b in range(128) if chr(b).isalnum())


# A grammar is a function of the bytes and a place: the places behind its texts there, and whether the bytes end within
# one, so that more bytes may make a text of it.

def word(text):
    """This word in any case."""
    def at(data, place):
        for i, b in enumerate(text.encode("latin-1")):
            if place + i == len(data):
                return set(), True
            if bytes([data[place + i]]).upper() != bytes([b]).upper():
                return set(), False
        return {place + len(text)}, False
    return at


def run(class_, least, most=None, holds=None, goes_on=None):
    """Bytes of a class; `holds` says which texts are meant, `goes_on` which can begin one."""
    def at(data, place):
        ends, i = set(), place
        while True:
            text = data[place:i]
            if goes_on and not goes_on(text):
                return ends, False
            if len(text) >= least and (not holds or holds(text)):
                ends.add(i)
            if most is not None and len(text) == most:
                return ends, False
            if i == len(data):
                return ends, True
            if data[i] not in class_:
                return ends, False
            i += 1
    return at


def seq(*parts):
    def at(data, place):
        places, more = {place}, False
        for part in parts:
            found = [part(data, one) for one in places]
            more = more or any(open_ for _, open_ in found)
            places = set().union(*(ends for ends, _ in found)) if found else set()
        return places, more
    return at


def alt(*parts):
    def at(data, place):
        found = [part(data, place) for part in parts]
        return set().union(*(ends for ends, _ in found)), any(open_ for _, open_ in found)
    return at


def nothing(data, place):
    return {place}, False


def opt(part):
    return alt(nothing, part)


def items(part, separator):
    """One or more, with the separator between."""
    def at(data, place):
        ends, more = set(), False
        waiting = [place]
        while waiting:
            found, open_ = part(data, waiting.pop())
            more = more or open_
            for end in found - ends:
                ends.add(end)
                behind, open_ = word(separator)(data, end)
                more = more or open_
                waiting.extend(behind)
        return ends, more
    return at


def in_range(least, most):
    def goes_on(text):
        if not text:
            return True
        return (text == b"0" and least == 0) or (text[:1] != b"0" and int(text) <= most)
    return run(DIGITS, 1, holds=goes_on, goes_on=goes_on)


SP, CRLF = word(" "), word("\r\n")
number = in_range(0, 4294967295)
nz = in_range(1, 4294967295)
atom = run(ATOM, 1, 255)
tag = run(ALNUM, 1, 32)
text = run(TEXT, 0)
quoted_char = alt(run(TEXT - frozenset(b'"\\'), 1, 1), word('\\"'), word("\\\\"))


def quoted(data, place):
    """Any number of characters between quotes."""
    places, more = word('"')(data, place)
    ends = set()
    while places:
        found = [(word('"')(data, one), quoted_char(data, one)) for one in places]
        for (end, open_end), (next_, open_next) in found:
            ends |= end
            more = more or open_end or open_next
        places = set().union(*(next_ for _, (next_, _) in found))
    return ends, more


def other_than(*words):
    """An atom that is none of these words."""
    return run(ATOM, 1, 255, holds=lambda t: t.upper() not in [w.encode() for w in words])


def literal(side, least):
    def octets(count):
        def at(data, place):
            front = data[place:place + count]
            if any(b not in OCTETS for b in front):
                return set(), False
            return (set(), True) if len(front) < count else ({place + count}, False)
        return at

    def at(data, place):
        heads, more = word("{")(data, place)
        ends = set()
        for head in heads:
            for end in in_range(least, LITERAL_LIMIT)(data, head)[0]:
                count = int(data[head:end])
                tails = [seq(word("}"), CRLF, octets(count))]
                if side == "C" and count <= PLUS_LIMIT:
                    tails.append(seq(word("+}"), CRLF, octets(count)))
                found, open_ = alt(*tails)(data, end)
                ends |= found
                more = more or open_
            more = more or in_range(least, LITERAL_LIMIT)(data, head)[1]
        return ends, more
    return at


flag = seq(opt(word("\\")), atom)
flags = seq(word("("), opt(items(flag, " ")), word(")"))
permanent_flags = seq(word("("), opt(items(alt(flag, word("\\*")), " ")), word(")"))
set_end = alt(nz, word("*"))
uid_set = items(seq(set_end, opt(seq(word(":"), set_end))), ",")


def string(side):
    return alt(quoted, literal(side, 0))


def astring(side):
    return alt(atom, string(side))


def command(data):
    a, s = astring("C"), SP
    fetch = alt(word("(UID FLAGS RFC822.SIZE)"), word("(UID BODY.PEEK[])"), word("(UID BODY.PEEK[]<0.22>)"))
    bodies = [
        word("CAPABILITY"), word("NOOP"), word("LOGOUT"),
        seq(word("LOGIN "), a, s, a),
        seq(word("ENABLE "), items(atom, " ")),
        seq(word('LIST "" '), quoted),
        seq(word("CREATE "), a), seq(word("SELECT "), a),
        seq(word("APPEND "), a, s, flags, s, literal("C", 1)),
        seq(word("UID FETCH "), uid_set, s, fetch),
        seq(word("UID STORE "), uid_set, s, alt(word("+FLAGS.SILENT "), word("-FLAGS.SILENT ")), flags),
        seq(word("UID EXPUNGE "), uid_set),
    ]
    return seq(tag, SP, alt(*bodies), CRLF)(data, 0)


code = alt(
    seq(word("UIDNEXT "), nz), seq(word("UIDVALIDITY "), nz), seq(word("PERMANENTFLAGS "), permanent_flags),
    seq(word("APPENDUID "), nz, SP, nz), word("READ-ONLY"), word("READ-WRITE"),
    seq(other_than("UIDNEXT", "UIDVALIDITY", "PERMANENTFLAGS", "APPENDUID", "READ-ONLY", "READ-WRITE"),
        opt(seq(SP, run(TEXT - frozenset(b"]"), 0)))))
plain = alt(nothing, seq(run(TEXT - frozenset(b"["), 1, 1), text))
response = alt(plain, seq(word("["), code, word("] "), text))
nstring = alt(word("NIL"), string("R"))
fetch_item = alt(seq(word("UID "), nz), seq(word("FLAGS "), flags), seq(word("RFC822.SIZE "), number),
                 seq(alt(word("BODY[] "), word("BODY[]<0> ")), nstring))
tail = opt(seq(SP, text))
NAMED = ["OK", "NO", "BAD", "BYE", "PREAUTH", "CAPABILITY", "ENABLED", "LIST", "FLAGS"]
NUMBERED = ["EXISTS", "EXPUNGE", "FETCH"]
other = run(ATOM, 1, 255, holds=lambda t: not t.isdigit() and t.upper() not in [w.encode() for w in NAMED])
untagged = alt(
    seq(alt(*(word(w) for w in NAMED[:5])), SP, response),
    seq(alt(word("CAPABILITY"), word("ENABLED")), opt(seq(SP, items(atom, " ")))),
    seq(word("LIST "), flags, SP, alt(seq(word('"'), quoted_char, word('"')), word("NIL")), SP, astring("R")),
    seq(word("FLAGS "), flags),
    seq(number, word(" EXISTS")), seq(nz, word(" EXPUNGE")),
    seq(nz, word(" FETCH ("), items(fetch_item, " "), word(")")),
    seq(other, tail), seq(number, SP, other_than(*NUMBERED), tail))


def reply(data):
    return seq(alt(seq(word("+ "), text), seq(tag, SP, alt(word("OK"), word("NO"), word("BAD")), SP, response),
                   seq(word("* "), untagged)), CRLF)(data, 0)


# ---- answers

def begins(side, data):
    """The end of the spelling at the front, if one stands there; else whether the bytes begin one."""
    ends, more = (command if side == "C" else reply)(data)
    assert len(ends) < 2, (side, data, ends)
    return (min(ends), False) if ends else (None, more)


def digits_behind_brace(data, at):
    """The digits between a `{` and this place, if nothing else stands there."""
    i = at
    while i > 0 and data[i - 1] in DIGITS:
        i -= 1
    return data[i:at] if i > 0 and data[i - 1:i] == b"{" else b""


def passes(side, data, at):
    digits, b = digits_behind_brace(data, at), data[at]
    if not digits:
        return False
    if b in DIGITS:
        return int(digits + bytes([b])) > LITERAL_LIMIT
    return side == "C" and b == ord("+") and int(digits) > PLUS_LIMIT


def asked(side, data):
    """The length of the literal whose `{n}` and line end the bytes end with."""
    if side == "C" and data.endswith(b"}\r\n"):
        digits = digits_behind_brace(data, len(data) - 3)
        return int(digits) if digits else None
    return None


def answer(side, data):
    end, more = begins(side, data)
    if end is not None:
        return f"w {end}"
    if more:
        count = asked(side, data)
        return "p" if count is None else f"a {count}"
    at = max(k for k in range(len(data)) if begins(side, data[:k])[1])
    return f"t {at}" if passes(side, data, at) else f"s {at}"


def places(data):
    """How many bytes stand up to and with each place."""
    ends, begin = [], 0
    while (feed := data.find(b"\n", begin)) >= 0:
        length = re.search(rb"\{([0-9]+)\+?\}\r\n$", data[begin:feed + 1])
        behind = feed + 1 + (int(length.group(1)) if length else 0)
        ends += [feed + 1] + [k + 1 for k in range(feed + 1, min(behind, len(data))) if data[k] == 0]
        begin = behind
    return ends


EXAMPLES = [
    ("C", b"a1 CAPABILITY\r\n"), ("C", b"A2 noop\r\n"), ("C", b"A LOGOUT\r\n"),
    ("C", b"A3 LOGIN \"u\\\"\\\\\" pass\r\n"), ("C", b"A3 LOGIN {1}\r\nu {2+}\r\np\xe9\r\n"),
    ("C", b"A4 ENABLE IMAP4rev2 UTF8=ACCEPT\r\n"), ("C", b"A5 LIST \"\" \"*\"\r\n"),
    ("C", b"A6 CREATE INBOX\r\n"), ("C", b"A7 SELECT \"a b\"\r\n"),
    ("C", b"A8 APPEND b (\\Seen kw) {3}\r\nabc\r\n"), ("C", b"A8 APPEND b () {3+}\r\n\"\r\n\r\n"),
    ("C", b"A9 UID FETCH 1,3:*,*:5 (UID FLAGS RFC822.SIZE)\r\n"), ("C", b"A9 UID FETCH 7 (UID BODY.PEEK[])\r\n"),
    ("C", b"A9 UID FETCH 559:* (UID BODY.PEEK[]<0.22>)\r\n"),
    ("C", b"A10 UID STORE 4294967295 +FLAGS.SILENT (\\Deleted)\r\n"), ("C", b"A11 UID STORE * -FLAGS.SILENT ()\r\n"),
    ("C", b"A12 UID EXPUNGE 1,2,30\r\n"),
    ("C", b"A8 APPEND b () {4097+}\r\n"), ("C", b"A8 APPEND b () {4096+}\r\n"), ("C", b"A8 APPEND b () {16777239}\r\n"),
    ("R", b"+ go\r\n"), ("R", b"A1 OK done\r\n"), ("R", b"A1 NO [TRYCREATE] no mailbox\r\n"), ("R", b"t BAD x[y\r\n"),
    ("R", b"* OK [UIDNEXT 4] n\r\n"), ("R", b"* OK [UIDVALIDITY 4294967295] v\r\n"), ("R", b"* BYE \r\n"),
    ("R", b"* PREAUTH hi {5}\r\n"), ("R", b"* NO [ALERT {3}a b] \xe9\r\n"), ("R", b"* BAD [X ] z\r\n"),
    ("R", b"* OK [PERMANENTFLAGS (\\Seen \\* k)] p\r\n"), ("R", b"A6 OK [APPENDUID 1 10] done\r\n"),
    ("R", b"A7 OK [READ-WRITE] done\r\n"), ("R", b"A7 OK [READ-ONLY] \r\n"),
    ("R", b"* CAPABILITY IMAP4rev2 X=[y\r\n"), ("R", b"* ENABLED\r\n"),
    ("R", b"* 1 FETCH (BODY[] {6}\r\n{2}\r\n\n)\r\n"), ("R", b"* 1 FETCH (BODY[] {3}\r\n\0\n\0)\r\n"),
    ("R", b"* LIST (\\HasNoChildren) \"/\" \"a\\\\b\"\r\n"), ("R", b"* LIST () NIL {4}\r\na\nb]\r\n"),
    ("R", b"* LIST () \"\\\"\" INBOX\r\n"),
    ("R", b"* FLAGS (\\Answered $Forwarded)\r\n"), ("R", b"* 0 EXISTS\r\n"), ("R", b"* 12 EXPUNGE\r\n"),
    ("R", b"* 1 FETCH (UID 7 FLAGS (\\Seen) RFC822.SIZE 0)\r\n"), ("R", b"* 1 FETCH (UID 7 BODY[] {3}\r\nabc)\r\n"),
    ("R", b"* 2 FETCH (BODY[]<0> \"x\\\"\" BODY[] NIL)\r\n"), ("R", b"* 2 FETCH (BODY[] {0}\r\n UID 3)\r\n"),
    ("R", b"* 3 RECENT\r\n"), ("R", b"* 3 5 [x\r\n"), ("R", b"* STATUS x (y)\r\n"), ("R", b"* SEARCH\r\n"),
    ("R", b"* 007 X\r\n"), ("R", b"* 0 FETCH (UID 1)\r\n"), ("R", b"* 1 FETCH (BODY[] {16777239}\r\n"),
]

# Of these a buffer of replies is asked too.
BUFFERED = [
    b"+ go\r\n", b"A1 NO [TRYCREATE] no mailbox\r\n", b"* OK [UIDNEXT 4] n\r\n", b"* PREAUTH hi {5}\r\n",
    b"* 1 FETCH (BODY[] {6}\r\n{2}\r\n\n)\r\n", b"* 1 FETCH (BODY[] {3}\r\n\0\n\0)\r\n", b"* LIST () NIL {4}\r\na\nb]\r\n",
    b"* 0 EXISTS\r\n", b"* 1 FETCH (UID 7 FLAGS (\\Seen) RFC822.SIZE 0)\r\n", b"* 1 FETCH (UID 7 BODY[] {3}\r\nabc)\r\n",
    b"* 2 FETCH (BODY[] {0}\r\n UID 3)\r\n", b"* 3 5 [x\r\n", b"* 0 FETCH (UID 1)\r\n", b"* 1 FETCH (BODY[] {16777239}\r\n",
    b"* 1 FETCH (UID 7 BODY[] {3}\r\n", b"* 2 EXISTS\r",
]


def answers(side, data):
    yield answer(side, data)
    yield ", ".join(answer(side, data[:k]) for k in range(len(data)))
    yield " ".join(["places"] + [str(end) for end in places(data)])
    for place in range(len(data)):
        yield ", ".join(answer(side, data[:place] + bytes([b]) + data[place + 1:]) for b in CHANGES)


def whole_answer(side, data):
    yield answer(side, data)


def read(line):
    """The letter and the bytes of an example's line."""
    letter, _, text = line.rstrip("\n").partition(" ")
    return letter, unescaped(text.encode())


def buffered(data):
    """What a buffer of replies answers: the same for each size of the pieces."""
    told = answer("R", data)
    left = 0 if told.startswith("w ") else len(data)
    return [f"{told}, held {len(data)}, then {left}"] * 3


# What makes replies, and what is asked of them.

def listing(count):
    flags = ["", "\\Seen", "\\Answered \\Seen", "\\Flagged $Forwarded keyword"]
    return b"".join(b"* %d FETCH (UID %d FLAGS (%s) RFC822.SIZE %d)\r\n" % (n, 2 * n, flags[n % 4].encode(), 37 * n)
                    for n in range(1, count + 1))


def body(size):
    octets = (b"a line of a message\r\n" * (size // 21 + 1))[:size]
    return b"* 1 FETCH (UID 7 BODY[] {%d}\r\n" % size + octets + b")\r\n"


def replies(data):
    """How many replies stand at the front, and how many bytes they have."""
    count, used = 0, 0
    while used < len(data) and (end := begins("R", data[used:])[0]) is not None:
        count, used = count + 1, used + end
    return f"{count} replies, {used} bytes"


def made():
    """The lines after the examples, each with its answer."""
    for line, data in (("listings 4", listing(4)), ("body 50", body(50))):
        yield line, f"{len(data)} bytes"
        for question in ("read all", "feed in pieces of 1000", "feed in pieces of 7"):
            yield question, replies(data)
        yield "line feeds", f"{data.count(10)} line feeds"


def examples():
    """Each line, and a call that gives its answers."""
    with open(REAL_LINES, encoding="ascii") as file:
        real = [read(line) for line in file if not line.startswith("#")]
    for side, data in EXAMPLES + real:
        yield f"{side} {escaped(data)}", partial(answers if side.isupper() else whole_answer, side.upper(), data)
    for data in BUFFERED:
        yield f"b {escaped(data)}", partial(buffered, data)
    for line, told in made():
        yield line, partial(list, [told])


def transcript(with_answers):
    """The lines, with their answers if asked."""
    for line, answers_to in examples():
        yield line + "\n"
        if with_answers:
            yield from (f"  {told}\n" for told in answers_to())


def check():
    """Looks whether the files of crates/tests_of_words have the examples and their answers."""
    tally = Tally()
    for name, with_answers in (("stdin", False), ("stdout", True)):
        with open(os.path.join(TESTS_OF_WORDS, name), encoding="utf-8") as file:
            tally.check(f"crates/tests_of_words/{name} has {'the answers' if with_answers else 'the examples'}", "".join(transcript(with_answers)) in file.read())
    tally.end()


def main():
    words = parser_of(__doc__)
    words.add_argument("what", choices=("examples", "answers", "check"))
    words = words.parse_args()
    if words.what == "check":
        check()
    sys.stdout.writelines(transcript(words.what == "answers"))


if __name__ == "__main__":
    main()
