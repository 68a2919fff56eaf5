"""Messages that more than one script makes or looks at."""


def of_3_kb(number):
    """A message of 3 KB with this number as its subject."""
    head = b"From: a@example.org\r\nSubject: %d\r\n\r\n" % number
    return head + (b"0123456789" * 6 + b"\r\n") * ((3000 - len(head)) // 62)


def subjects(messages):
    """Subject and flags of each message (UID, flags as letters, bytes)."""
    return sorted((next(line[9:].strip().decode() for line in data.split(b"\n") if line.startswith(b"Subject: ")), "".join(sorted(flags)))
                  for _, flags, data in messages)
