"""What the run of a trial may come to in which one allocation is refused, for refused_allocations.py."""
import subprocess

from oracle.alike import WorldText, unlike

NO_MEMORY = "8"


def script_of(text):
    """The script that settles a trial, and again where that ends with a fault."""
    return "script wanting\ncase a trial\ntrial\n" + text + ".\nsettle\n"


def runs_in(output):
    """The runs that are told: of each the words of its first line, and the lines of the world that it left."""
    lines = output.split("\nsettle\n", 1)[-1].split("\n")
    told, runs = [line[2:] for line in lines if line.startswith("  ")], []
    for part in "\n".join(told).split("\nagain\n"):
        rows = part.split("\n")
        start = next((place for place, row in enumerate(rows) if row.startswith("far ")), len(rows))
        runs.append((rows[0].split(), rows[start:]))
    return runs


class Wanting:
    """One trial, whose end is known. A run of it in which an allocation is refused may tell the same, or print nothing and tell
    `no memory`; these two are looked at by the caller. Else it tells `fault 8`, and then another run over the same devices, in which
    nothing is refused, has to be settled. What that leaves has to be alike to the known end, or, where the first run had replaced the
    state already, to the end of one run more."""

    def __init__(self, program, text, whole):
        self.program = program
        self.options = "".join(text.splitlines(keepends=True)[:2])
        self.opening = WorldText(text.split("\n"))
        (_, left), = runs_in(whole)
        self.ended = WorldText(left)
        self.later = WorldText(self.run_from(left))

    def run_from(self, lines):
        """What an unbroken run leaves of this world."""
        script = script_of(self.options + "\n".join(lines) + "\ntries 1\n")
        told = subprocess.run([self.program], input=script, capture_output=True, text=True, check=True, timeout=120)
        (words, left), = runs_in(told.stdout)
        assert words[0] == "settled", words
        return left

    def how(self, status, output, errors):
        """How such a run ended, or nothing if it may not end so."""
        runs = runs_in(output)
        if status or errors or len(runs) != 2:
            return None
        (first, between), (second, left) = runs
        if first[:2] != ["fault", NO_MEMORY] or second[:1] != ["settled"] or not between:
            return None
        is_replaced = WorldText(between).state[0] == self.ended.state[0]
        if unlike(self.opening, self.later if is_replaced else self.ended, WorldText(left)) is not None:
            return None
        return "are told as want of memory behind the new state" if is_replaced else "are told as want of memory"
