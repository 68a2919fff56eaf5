"""Where the programs of this repository are built, and how."""
import argparse
import os
import pathlib
import subprocess
import sys

TOP = str(pathlib.Path(__file__).resolve().parents[2])
# Set by bin/try-all, which has looked at the programs and builds none.
AS_BUILT = "TRY_ALL_AS_BUILT"


def built(crate):
    """The path of the program that this crate becomes."""
    return os.path.join(TOP, "crates", crate, "out", crate)


MBSYNC = built("mbsync_main")
TESTS_OF_WORDS = os.path.join(TOP, "crates", "tests_of_words")
# What servers in use say and are asked.
REAL_LINES = os.path.join(TOP, "oracle", "real-lines.txt")
LAUNCHERS = {"mbsync_main": "bin/mbsync -h", "mbworld": "bin/mbworld -h", "trial_imapd": "bin/trial-imapd -h", "mbplan": "bin/mbplan </dev/null",
             "mbtrial": "bin/mbtrial </dev/null"}


def how_to_build(crate):
    """A command at the top of the repository that proves and builds the program of a crate."""
    return LAUNCHERS.get(crate, f"bin/launch {crate} </dev/null")


def build(crate, *words):
    """Proves and builds the program of a crate, if it is missing or older than its sources; then it is run with these words."""
    if AS_BUILT not in os.environ:
        launch = [os.path.join(TOP, "bin", "launch"), crate, *words]
        subprocess.run(launch, stdin=subprocess.DEVNULL, stdout=subprocess.DEVNULL, check=True)


def crates_below():
    """The names in the line of each crate in crates.txt: the crates that it stands on, and libraries of the kit."""
    with open(os.path.join(TOP, "crates.txt"), encoding="utf-8") as text:
        parts = [line.partition("#")[0].partition(":") for line in text]
    return {name.split()[0]: below.split() for name, _, below in parts if name.strip()}


def with_those_below(crates, name):
    """A crate and all crates of this repository that it stands on."""
    return {name}.union(*(with_those_below(crates, below) for below in crates[name] if below in crates))


def must_run(program):
    """Ends the script if there is no such program."""
    if not os.access(program, os.X_OK):
        how = f": {how_to_build(os.path.basename(program))} builds it" if program == built(os.path.basename(program)) else ""
        sys.exit(f"{program} is not built{how}")


def parser_of(text):
    """A parser of a script's words, whose help begins with the text of the script."""
    return argparse.ArgumentParser(description=text, formatter_class=argparse.RawDescriptionHelpFormatter)
