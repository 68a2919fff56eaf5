#!/usr/bin/env python3
"""Prints what it costs to resume a run of which half was done, beside the other half unbroken.

A first pull of N messages was stopped when half of its steps were logged: their copies are in the near mailbox, and the journal has the
plan and the log. mbtrial finishes it. The same work without a break is a pull of the other half beside the first one, which a state
knows; a first pull of half as many messages into an empty mailbox is printed beside it. Pushes likewise. Printed are seconds of the
processor, the least of some runs, each with the reading of its text. Each run has to make the copies that are wanted, and no more. The
limit is twice the time of the other half; the script says where it is passed, and that is no failure."""
import pathlib
import resource
import subprocess
import sys

sys.path.insert(0, str(pathlib.Path(__file__).resolve().parents[1]))
from oracle import outcome_model
from tests.support.places import built, must_run, parser_of
from tests.support.tally import Tally

LIMIT = 2


def mark(k):
    """The k-th mark of the trial generator."""
    return outcome_model.mark(k).decode()


def sources(is_pull, count):
    """The lines of the messages to be copied."""
    letter, end = ("f", r"\0d\0a") if is_pull else ("n", r"\0a")
    return [f'{letter} {k} - "message {k}{end}"' for k in range(1, count + 1)]


def copies(is_pull, count):
    """The lines of the copies that were made."""
    letter, end = ("n", r"\0a") if is_pull else ("f", r"\0d\0a")
    return [f'{letter} {k} - "X-TUID: {mark(k)}{end}message {k}{end}"' for k in range(1, count + 1)]


def journal(is_pull, count, done):
    """The journal of a first run that copies so many messages, with so many steps logged."""
    word = "pull" if is_pull else "push"
    sides = [f"far 1 {count} {count + 1}", "near 1 0 1"] if is_pull else ["far 1 0 1", f"near 1 {count} {count + 1}"]
    steps = [f"s new {word} {k} - {mark(k)}" for k in range(1, count + 1)]
    lines = ["journal 1", "run 1", *sides, *steps, "go", *(f"d {k} {k}" for k in range(1, done + 1))]
    return 'journal "' + "".join(line + r"\0a" for line in lines) + '"'


def trial(is_pull, count, done, is_resumed):
    """Half of the messages are copied: by a run that was stopped, or by one that has ended."""
    there, made = sources(is_pull, count), copies(is_pull, done)
    far, near, far_next, near_next = (there, made, count + 1, done + 1) if is_pull else (made, there, done + 1, count + 1)
    highest = f"{done} 0" if is_pull else f"0 {done}"
    if is_resumed or done == 0:
        state = ["state 0 0 0 0 0"]
    else:
        state = [f"state 1 1 1 {highest}", *(f"e {k} {k} -" for k in range(1, done + 1))]
    course = ["tries 1"] + ([journal(is_pull, count, done)] if is_resumed else [])
    lines = ["sync Full", "expunge None", f"far 1 {far_next}", *far, f"near 1 {near_next}", *near, *state, "end", *course]
    return "\n".join(lines) + "\n"


def is_done(told, is_pull, count, done, is_resumed):
    """Whether the other half was copied, each message once, and the state says so."""
    word, letter, run = "pull" if is_pull else "push", "n" if is_pull else "f", 1 if is_resumed or done == 0 else 2
    lines = told.split("\n")
    steps = [f"new {word} {k} -> {k}" for k in range(done + 1, count + 1)]
    # A run that was planned when copies were there has seen them.
    seen = 0 if is_resumed else done
    highest = f"{count} {seen}" if is_pull else f"{seen} {count}"
    entries = [line for line in lines if line.startswith("e ")]
    made = [line.split(" ")[1] for line in lines if line.startswith(letter + " ")]
    return (lines[0] == ("settled finished 0" if is_resumed else "settled ran 0") and lines[1:1 + len(steps)] == steps
            and not lines[1 + len(steps)].startswith("new ") and made == [str(k) for k in range(1, count + 1)]
            and f"state {run} 1 1 {highest}" in lines and entries == [f"e {k} {k} -" for k in range(1, count + 1)])


def processor(program, text):
    """Seconds of the processor that a run takes, and what it tells."""
    before = resource.getrusage(resource.RUSAGE_CHILDREN)
    told = subprocess.run([program], input=text, capture_output=True, text=True, check=False).stdout
    after = resource.getrusage(resource.RUSAGE_CHILDREN)
    return after.ru_utime + after.ru_stime - before.ru_utime - before.ru_stime, told


def cost(tally, program, repeat, *case):
    """The least time of so many runs of a case, each of which has to do its work."""
    text, least = trial(*case), None
    for _ in range(repeat):
        seconds, told = processor(program, text)
        if not is_done(told, *case):
            tally.fails(f"another end of {case}: {told[:200]}")
            tally.end()
        tally.passes()
        least = seconds if least is None else min(least, seconds)
    return least


def main():
    words = parser_of(__doc__)
    words.add_argument("program", nargs="?", default=built("mbtrial"), help="the built mbtrial, if it is left out")
    words.add_argument("--messages", type=int, default=10000, metavar="N", help="how many messages (10000)")
    words.add_argument("--repeat", type=int, default=3, metavar="N", help="how many runs (3)")
    told = words.parse_args()
    must_run(told.program)
    tally = Tally()
    for is_pull in True, False:
        name = "pull" if is_pull else "push"
        for count in (told.messages // 4, told.messages // 2, told.messages):
            half = count // 2
            resumed = cost(tally, told.program, told.repeat, is_pull, count, half, True)
            unbroken = cost(tally, told.program, told.repeat, is_pull, count, half, False)
            alone = cost(tally, told.program, told.repeat, is_pull, half, 0, False)
            ratio = resumed / unbroken
            passed = f" (more than {LIMIT})" if ratio > LIMIT else ""
            print(f"{name} of {count}, {half} done: resumed {resumed:.2f} s, the other half unbroken {unbroken:.2f} s, {ratio:.1f} times{passed};"
                  f" a first {name} of {half} {alone:.2f} s", flush=True)
    tally.end()


if __name__ == "__main__":
    main()
