"""Asks a server how its mailboxes are called: what stands between the parts of a name, and in front of all."""
import re
import socket

from mailboxes.box_names import ServerNames
from mailboxes.near_folders import Refused

WAIT = 60
LISTED = re.compile(rb'\* LIST \([^)]*\) (?:"\\?(?P<delimiter>.)"|NIL) ', re.IGNORECASE)
NAMESPACE = re.compile(rb'\* NAMESPACE \(\("(?P<prefix>(?:\\.|[^"\\])*)" ', re.IGNORECASE)


def quoted(text):
    return b'"%s"' % re.sub(rb'(["\\])', rb"\\\1", text.encode())


class Asked:
    """A session at a server, in which commands are asked one after another."""

    def __init__(self, stream):
        self.stream, self.lines, self.tag = stream, stream.makefile("rb"), 0
        if not self.lines.readline().startswith(b"* "):
            raise Refused("it sent something that is not IMAP")

    def ask(self, command):
        """Whether a command succeeds, and what comes back."""
        self.tag += 1
        self.stream.sendall(b"N%d %s\r\n" % (self.tag, command))
        told = b""
        while line := self.lines.readline():
            if line.startswith(b"N%d " % self.tag):
                return line.split(b" ")[1].upper() == b"OK", told
            told += line
            if literal := re.search(rb"\{(\d+)\+?\}\r\n$", line):
                told += self.lines.read(int(literal[1]))
        raise Refused("it ended the connection")


def names_of(host, port, user, password, has_namespace=True):
    """How the server at an address calls its mailboxes. isync puts the namespace in front unless it is told otherwise."""
    try:
        with socket.create_connection((host, int(port)), timeout=WAIT) as stream:
            asked = Asked(stream)
            if not asked.ask(b"LOGIN %s %s" % (quoted(user), quoted(password)))[0]:
                raise Refused("it does not take User and Pass")
            words = asked.ask(b"CAPABILITY")[1].upper().split()
            found = ServerNames()
            if has_namespace and b"NAMESPACE" in words and (space := NAMESPACE.search(asked.ask(b"NAMESPACE")[1])):
                found.prefix = re.sub(rb"\\(.)", rb"\1", space["prefix"]).decode()
            is_listed, told = asked.ask(b'LIST "" "*"')
            if not is_listed:
                raise Refused("it does not list its mailboxes")
            found.delimiter = next((it["delimiter"].decode() for it in LISTED.finditer(told) if it["delimiter"]), "/")
            asked.ask(b"LOGOUT")
            return found
    except (OSError, ValueError) as error:
        raise Refused(str(error)) from error
