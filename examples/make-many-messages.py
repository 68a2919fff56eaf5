#!/usr/bin/env python3
"""Writes many-messages.world: some hundred messages as people have them, with folded headers, MIME parts, 8-bit bytes,
old mark lines and odd line ends, half of them on each side, some paired, some changed, some gone.

    ./make-many-messages.py > many-messages.world

It draws from a generator of its own with a fixed start, so that it writes the same bytes wherever it runs."""

PLAIN = set(range(32, 127)) - {ord('"'), ord("\\")}
LETTERS = "DFPRST"
PEOPLE = ["Ada", "Grace", "Edsger", "Barbara", "Tony", "Jörg", "Zoë", "Łukasz"]
SUBJECTS = ["Lunch", "Minutes of the meeting", "Re: your patch", "=?UTF-8?Q?Gr=C3=BC=C3=9Fe?=", "Invoice 2026-11",
            "a subject that is so long that a mail reader folds it, as header lines should not be longer than a screen"]


class Numbers:
    """A linear congruential generator: the numbers need not be good, only the same everywhere."""

    def __init__(self, start):
        self.state = start

    def below(self, bound):
        self.state = (self.state * 6364136223846793005 + 1442695040888963407) % 2**64
        return (self.state >> 33) % bound

    def one_of(self, things):
        return things[self.below(len(things))]


def escaped(data):
    return "".join(chr(b) if b in PLAIN else "\\%02x" % b for b in data)


def folded(line):
    out, rest = [], line
    while len(rest) > 60 and " " in rest[:60]:
        cut = rest[:60].rindex(" ")
        out.append(rest[:cut])
        rest = "\t" + rest[cut + 1:]
    return out + [rest]


def body(numbers, boundary):
    text = ["Dear %s," % numbers.one_of(PEOPLE), "", "see you on the %d. Café at %d:00?" % (1 + numbers.below(28), 8 + numbers.below(10)),
            ".", "-- ", "From the desk of %s" % numbers.one_of(PEOPLE)]
    if boundary is None:
        return text
    encoded = ["JVBERi0xLjQKJ" + "%012x" % numbers.below(2**31) + "Zz09" for _ in range(1 + numbers.below(4))]
    return (["This is a message in MIME format.", "--" + boundary, 'Content-Type: text/plain; charset="iso-8859-1"',
             "Content-Transfer-Encoding: 8bit", ""] + text
            + ["--" + boundary, 'Content-Type: application/pdf; name="a \\"quoted\\" name.pdf"', "Content-Transfer-Encoding: base64", ""]
            + encoded + ["--" + boundary + "--"])


def message(numbers, number, end):
    boundary = "b%d=_%d" % (number, numbers.below(10**6)) if numbers.below(3) == 0 else None
    lines = []
    if numbers.below(6) == 0:
        lines.append(numbers.one_of(["X-TUID: AQAAAAAAAAAC", "x-tuid: old", "X-Tuid:"]))
    lines += ["From: %s <user%d@example.org>" % (numbers.one_of(PEOPLE), number)]
    lines += folded("To: " + ", ".join("%s <%s@example.com>" % (p, p.lower()) for p in PEOPLE[: 1 + numbers.below(len(PEOPLE))]))
    lines += folded("Subject: " + numbers.one_of(SUBJECTS))
    lines += ["Message-ID: <%d.%d@example.org>" % (number, numbers.below(10**9)), "MIME-Version: 1.0"]
    if boundary:
        lines += ['Content-Type: multipart/mixed;', ' boundary="%s"' % boundary]
    lines += [""] + body(numbers, boundary)
    encoding = "latin-1" if numbers.below(2) else "utf-8"
    ends = [end if numbers.below(12) else numbers.one_of([b"\n", b"\r\n", b"\r\r\n"]) for _ in lines]
    if numbers.below(5) == 0:
        ends[-1] = numbers.one_of([b"", b"\r"])
    return b"".join(line.encode(encoding, "replace") + e for line, e in zip(lines, ends))


def flags(numbers):
    return "".join(letter for letter in LETTERS if numbers.below(4) == 0) or "-"


def main():
    numbers = Numbers(2026)
    far, near, entries = [], [], []
    for number in range(1, 71):
        kind = numbers.below(10)
        far_there, near_there = kind != 0, kind not in (1, 2)
        old = number <= 50
        if not old and near_there and far_there:
            near_there = numbers.below(2) == 0
            far_there = not near_there
        recorded = flags(numbers)
        if far_there:
            far.append((number, flags(numbers) if numbers.below(3) == 0 else recorded, message(numbers, number, b"\r\n")))
        if near_there:
            near.append((number + 100, flags(numbers) if numbers.below(3) == 0 else recorded, message(numbers, number, b"\n")))
        if old:
            far_uid = 0 if kind == 0 and number % 2 == 0 else number
            entries.append((far_uid, number + 100, recorded))
    print("sync Full\nexpunge Near\nfar 1600000000 80")
    for uid, letters, data in far:
        print('f %d %s "%s"' % (uid, letters, escaped(data)))
    print("near 1700000000 200")
    for uid, letters, data in near:
        print('n %d %s "%s"' % (uid, letters, escaped(data)))
    for number in range(5):
        print('w %s "%s"' % (flags(numbers), escaped(message(numbers, 1000 + number, b"\n"))))
    print("state 7 1600000000 1700000000 50 150")
    for far_uid, near_uid, recorded in sorted(entries):
        print("e %d %d %s" % (far_uid, near_uid, recorded))
    print("end")


main()
