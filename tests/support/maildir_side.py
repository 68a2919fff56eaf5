"""The near side as a mail program sees and changes it: the files of a Maildir folder."""
import os
import re

NAME = re.compile(r"^(?P<base>[^:.][^:]*?)(,U=(?P<uid>[1-9][0-9]*))?(:2,(?P<letters>[A-Za-z]*))?$")


class MaildirSide:
    """The folder at this path, also to be used in a `with`."""

    def __init__(self, path):
        self.path = path
        for part in ("cur", "new", "tmp"):
            os.makedirs(os.path.join(path, part), exist_ok=True)

    def __enter__(self):
        return self

    def __exit__(self, *_):
        pass

    def files(self):
        """The path and the parts of each name that is a message's."""
        for part in ("new", "cur"):
            for name in sorted(os.listdir(os.path.join(self.path, part))):
                if found := NAME.match(name):
                    yield os.path.join(self.path, part, name), found

    def messages(self):
        """All files: UID or none, flags as letters, bytes."""
        found = []
        for path, name in self.files():
            with open(path, "rb") as file:
                found.append((int(name["uid"] or 0) or None, frozenset(name["letters"] or ""), file.read()))
        return found

    def add(self, name, data, letters):
        """A new file, as a mail program delivers or saves one."""
        part, end = ("cur", ":2," + "".join(sorted(letters))) if letters else ("new", "")
        with open(os.path.join(self.path, part, name + end), "xb") as file:
            file.write(data)

    def path_of(self, uid):
        return next((path, name) for path, name in self.files() if name["uid"] == str(uid))

    def set_flags(self, uid, _old, new):
        path, name = self.path_of(uid)
        os.rename(path, os.path.join(self.path, "cur", f"{name['base']},U={uid}:2,{''.join(sorted(new))}"))

    def remove(self, uid):
        os.remove(self.path_of(uid)[0])

    def text(self, name):
        """The text of a file that belongs to the folder, or none."""
        try:
            with open(os.path.join(self.path, name), encoding="ascii") as file:
                return file.read()
        except FileNotFoundError:
            return None
