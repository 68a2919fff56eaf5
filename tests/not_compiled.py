#!/usr/bin/env python3
"""Shows that a reply that a buffer lends is not kept over the next bytes that come: such a program does not compile.

It writes a program of a page into a scratch copy of the crates below it. As it is it has to compile, and to print what its reply says;
with a `put` between the reply and its use the borrow checker has to refuse it, at that line. The refusal is printed. Each of the other
calls that change the buffer is tried instead of `put`, too. Needs `rt`."""
import os
import pathlib
import shutil
import subprocess
import sys
import tempfile

sys.path.insert(0, str(pathlib.Path(__file__).resolve().parents[1]))
from tests.support.places import TOP, crates_below, parser_of, with_those_below
from tests.support.tally import Tally

CHANGES = ["buffer.put(b\"* 3 EXISTS\\r\\n\")?;", "buffer.step()?;", "buffer.drop_last(1);", "buffer.forget();"]
PROGRAM = r'''//! Reads a reply where it lies.
#![tactic(auto)]

use imap_replies::reply::Reply;
use imap_link::reply_buf::ReplyBuf;
use std::alloc::Global;
use std::process::ExitCode;
use wire_reader::answer::{Read, WireFault};

fn main(rt: HostRuntime) -> ExitCode {
    match told(rt.alloc()) {
        Ok(count) if println!(rt; "{count}").is_ok() => ExitCode::SUCCESS,
        _ => ExitCode::FAILURE,
    }
}

fn told(alloc: Global) -> Result<u32, WireFault> {
    let mut buffer = ReplyBuf::new(alloc);
    buffer.put(b"* 2 EXISTS\r\n")?;
    let Read::Whole(reply, _) = buffer.next()? else {
        return Ok(0);
    };
    // CHANGE
    match reply {
        Reply::Exists(count) => Ok(count),
        _ => Ok(0),
    }
}
'''


def copy(room):
    """Copies the sources of the crates below the program; of the program its place alone."""
    crates = crates_below()
    names = sorted(with_those_below(crates, "imap_link"))
    for name in names:
        shutil.copytree(f"{TOP}/crates/{name}", f"{room}/crates/{name}", ignore=shutil.ignore_patterns("out"))
    os.makedirs(f"{room}/crates/reads/src")
    with open(f"{room}/crates.txt", "w", encoding="utf-8") as text:
        text.writelines(f"{name}: {' '.join(crates[name])}\n" for name in names)
        text.write("reads: imap_link imap_replies wire_reader\n")


def tried(room, change):
    """What comes of the program with this line in it: its status, what it prints, and what is said of it."""
    with open(f"{room}/crates/reads/src/main.rt", "w", encoding="utf-8") as text:
        text.write(PROGRAM.replace("// CHANGE", change))
    done = subprocess.run(["rt", "try"], cwd=f"{room}/crates/reads", stdin=subprocess.DEVNULL, capture_output=True, text=True, check=False)
    return done.returncode, done.stdout, done.stderr


def main():
    parser_of(__doc__).parse_args()
    if shutil.which("rt") is None:
        sys.exit("the command rt of the Rattle kit is not on the PATH")
    line = PROGRAM[:PROGRAM.index("// CHANGE")].count("\n") + 1
    tally = Tally()
    with tempfile.TemporaryDirectory(prefix="not-compiled-") as room:
        copy(room)
        status, out, said = tried(room, "// Nothing comes between.")
        tally.check("the program without a change compiles, and prints 2", out == "2\n", f"status {status} {out}{said}")
        for change in CHANGES:
            status, out, said = tried(room, change)
            refusals = [it for it in said.splitlines() if f"main.rt:{line}:" in it and "[borrow-" in it]
            is_refused = status != 0 and not out and refusals
            tally.check(f"the borrow checker refuses {change}", is_refused, f"\n{out}{said}")
            if is_refused:
                print(f"  {refusals[0].partition('main.rt')[2]}")
    tally.end()


if __name__ == "__main__":
    main()
