#!/usr/bin/env python3
"""Runs the gate on a clean clone of HEAD and prints what it cost, crate by crate, as the table bench/gate.tsv.

usage: bench/gate.py [--kept] [--compare OLD] [LOG]

First tests/pages.py looks whether generated pages are current. The gate is `rt ci`, and here it proves all anew: what earlier runs on
this machine kept is not taken, unless `--kept` asks for it; the table then has what was left to do. Kit 13b never keeps anything. What the gate prints goes to LOG
(gate.log in the folder for temporary files where none is given). Minutes are processor minutes, asked of the system twice a second while
the checks run: a check's last half second may be missing, and what no check used (compilers, linkers, the programs) is in the line
`all else`. Run it with nothing beside it. Control-C ends it, and prints what it cost so far.

The cells of the table have tabs between them. With `--compare OLD`, a file with such a table (bench/gate.tsv, say, or what an earlier run
printed), the crates that grew or shrank are printed after the table, and the sums. Processors differ by the hour: a crate counts only
where it changed by more than a quarter, once the minutes of the crates that both tables have are set to one sum, and by more than half a
minute.
"""
import argparse
import collections
import contextlib
import os
import resource
import subprocess
import sys
import tempfile
import time

TOP = os.path.dirname(os.path.dirname(os.path.realpath(__file__)))
KINDS = ("proof", "tests", "wrong bodies")
REST, SUM = "all else", "together"
TICKS = os.sysconf("SC_CLK_TCK")


def flags_of(kept):
    """The words after `rt ci`."""
    kit = subprocess.run(["rt", "version"], stdout=subprocess.PIPE, check=True, text=True).stdout.split()[0]
    return [] if kept or kit == "rattle-kit-13b" else ["--anew"]


def words_of(pid):
    with open(f"/proc/{pid}/cmdline", "rb") as text:
        return text.read().decode(errors="replace").split("\0")


def kind_of(pid, words):
    """A wrong body is checked in a scratch folder, tests with a flag of their own."""
    if "rt-edit-" in os.readlink(f"/proc/{pid}/cwd"):
        return "wrong bodies"
    return "tests" if "--test" in words else "proof"


class Check:
    """A process of the prover: whose crate, what for, and its processor seconds so far."""

    def __init__(self, pid):
        words = words_of(pid)
        self.crate = words[words.index("--crate-name") + 1]
        self.kind = kind_of(pid, words)
        self.seconds = 0.0


def stats():
    """Of each process its parent, when it began, and the processor seconds that it has used."""
    found = {}
    for pid in filter(str.isdigit, os.listdir("/proc")):
        try:
            with open(f"/proc/{pid}/stat", encoding="ascii", errors="replace") as text:
                fields = text.read().rpartition(")")[2].split()
        except OSError:
            continue
        found[pid] = fields[1], fields[19], (int(fields[11]) + int(fields[12])) / TICKS
    return found


def is_below(pid, gate, found):
    """Whether a process was started by the gate, or by one that was."""
    while pid in found and pid != gate:
        pid = found[pid][0]
    return pid == gate


def sample(gate, checks):
    """Notes the time that each check of the gate has used."""
    found = stats()
    for pid, (_, began, seconds) in found.items():
        try:
            if (pid, began) not in checks and is_below(pid, gate, found):
                checks[pid, began] = Check(pid)
            if (pid, began) in checks:
                checks[pid, began].seconds = seconds
        except (OSError, ValueError, IndexError):
            # no check, or it has just ended
            continue


def run_gate(clone, log, flags):
    """The exit status, the minutes on the clock and of the processors, and the checks."""
    before = resource.getrusage(resource.RUSAGE_CHILDREN)
    began, checks = time.monotonic(), {}
    with open(log, "wb") as out:
        gate = subprocess.Popen(["rt", "ci", *flags], cwd=clone, stdout=out, stderr=subprocess.STDOUT)
        with contextlib.suppress(KeyboardInterrupt):
            while gate.poll() is None:
                sample(str(gate.pid), checks)
                time.sleep(0.5)
        # Control-C ended rt too, which may still have files to put back.
        gate.wait()
    after = resource.getrusage(resource.RUSAGE_CHILDREN)
    used = after.ru_utime + after.ru_stime - before.ru_utime - before.ru_stime
    return gate.returncode, (time.monotonic() - began) / 60, used / 60, checks.values()


def in_order(clone):
    with open(f"{clone}/crates.txt", encoding="utf-8") as text:
        return [line.split(":")[0].split()[0] for line in text if line.strip() and not line.startswith("#")]


def table_in(path):
    """The minutes of each crate, by the last column of the table in this file."""
    with open(path, encoding="utf-8") as text:
        rows = [line.rstrip("\n").split("\t") for line in text]
    return {row[0]: float(row[-1]) for row in rows if len(row) > 2 and row[0] not in ("Crate", REST, SUM)}


def print_changes(old, new):
    """The crates that grew or shrank, those that went and those that came, and the sums. Minutes are those of the new table's processors."""
    both = [it for it in old if it in new]
    speed = sum(new[it] for it in both) / (sum(old[it] for it in both) or 1)
    print(f"\nthe crates of both tables took {sum(new[it] for it in both):.1f} minutes, {speed:.2f} of what the old table says")
    for crate in sorted({*old, *new}, key=lambda it: old.get(it, 0) * speed - new.get(it, 0)):
        before, after = old.get(crate, 0) * speed, new.get(crate, 0)
        if abs(after - before) > max(0.5, before / 4 if crate in both else 0):
            what = "came" if crate not in old else "went" if crate not in new else "grew" if after > before else "shrank"
            print(f"{crate} {what}: {before:.1f} to {after:.1f}")
    print(f"together: {sum(old.values()) * speed:.1f} to {sum(new.values()):.1f}")


def print_table(clone, used, checks):
    """Prints the table, and gives the minutes of each crate."""
    minutes = collections.Counter()
    for check in checks:
        minutes[check.crate, check.kind] += check.seconds / 60
    kinds = [kind for kind in KINDS if any(of == kind for _, of in minutes)]
    print("Crate", *[kind.capitalize() for kind in kinds], "Together", sep="\t")
    for crate in in_order(clone):
        parts = [minutes[crate, kind] for kind in kinds]
        print(crate, *[f"{part:.1f}" if part else "" for part in parts], f"{sum(parts):.1f}", sep="\t")
    sums = [sum(it for (_, of), it in minutes.items() if of == kind) for kind in kinds]
    print(REST, *[""] * len(kinds), f"{max(used - sum(sums), 0):.1f}", sep="\t")
    print(SUM, *[f"{part:.1f}" for part in sums], f"{used:.1f}", sep="\t")
    return {crate: sum(minutes[crate, kind] for kind in KINDS) for crate in in_order(clone)}


def main():
    parser = argparse.ArgumentParser(description=__doc__, formatter_class=argparse.RawDescriptionHelpFormatter)
    parser.add_argument("--kept", action="store_true")
    parser.add_argument("--compare", metavar="OLD", type=table_in)
    parser.add_argument("log", nargs="?", metavar="LOG", default=os.path.join(tempfile.gettempdir(), "gate.log"))
    given = parser.parse_args()
    log = os.path.abspath(given.log)
    with tempfile.TemporaryDirectory(prefix="gate-") as room:
        clone = f"{room}/clone"
        subprocess.run(["git", "clone", "-q", TOP, clone], check=True)
        pages = subprocess.run([f"{clone}/tests/pages.py"], stdout=subprocess.PIPE, text=True, check=False)
        print(*[line for line in pages.stdout.splitlines() if not line.startswith("ok ")], sep="\n", flush=True)
        status, clock, used, checks = run_gate(clone, log, flags_of(given.kept))
        new = print_table(clone, used, checks)
    if given.compare:
        print_changes(given.compare, new)
    with open(log, encoding="utf-8", errors="replace") as text:
        last = text.read().rstrip().rpartition("\n")[2]
    print(f"\n{last}: {clock:.1f} minutes on {len(os.sched_getaffinity(0))} cores, {used:.1f} processor minutes")
    sys.exit(status or pages.returncode)


if __name__ == "__main__":
    main()
