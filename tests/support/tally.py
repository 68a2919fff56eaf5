"""Counts the checks of a script, and ends it with the line `N passed, M failed`."""
import contextlib
import sys
import traceback


class Wrong(Exception):
    """A check that failed, and after which the script cannot go on."""


class Tally:
    """The checks of a script so far."""

    def __init__(self):
        self.passed = self.failed = 0

    def passes(self, count=1):
        """Counts checks that are not printed one by one."""
        self.passed += count

    def fails(self, what):
        """Counts a failed check, and prints it."""
        self.failed += 1
        print(f"FAILED  {what}", flush=True)

    def check(self, what, is_so, found=""):
        """Counts and prints a check; a failed one with what was found."""
        if is_so:
            self.passes()
            print(f"ok      {what}", flush=True)
        else:
            self.fails(f"{what}: {found}" if found else what)

    def same(self, what, got, wanted):
        """The check that two values are equal."""
        if got == wanted:
            self.check(what, True)
        else:
            self.fails(f"{what}\n        wanted {wanted!r}\n        got    {got!r}")

    def skip(self, what, why):
        """Prints that something cannot be tried here. bin/try-all repeats such lines."""
        print(f"skipped {what}: {why}", flush=True)

    def tell(self, what):
        """Prints something that is no check."""
        print(f"told    {what}", flush=True)

    @contextlib.contextmanager
    def until_wrong(self):
        """Ends the work within where it raises `Wrong`, which is counted as a failed check."""
        try:
            yield
        except Wrong as wrong:
            self.fails(str(wrong))

    @contextlib.contextmanager
    def scene(self, name):
        """A failed check if the scene within does not come to its end."""
        try:
            yield
        except Exception:
            self.fails(f"the scene {name} comes to its end\n{traceback.format_exc()}")

    def play(self, scenes, names=()):
        """Plays the scenes, or those whose names contain one of these, and ends the script. A name that is in none is a failed check."""
        for name in names:
            if not any(name in scene.__name__ for scene in scenes):
                self.fails(f"no scene has {name} in its name")
        for scene in scenes:
            if not names or any(name in scene.__name__ for name in names):
                with self.scene(scene.__name__):
                    scene(self)
        self.end()

    def end(self):
        """Prints how many checks passed and failed, and ends the script with status 1 if one failed."""
        print(f"{self.passed} passed, {self.failed} failed")
        sys.exit(1 if self.failed else 0)
