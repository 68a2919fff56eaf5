"""What a run of a program costs."""
import os
import re
import shutil
import subprocess
import sys
import tempfile
import time
from dataclasses import dataclass

STRACE_ROW = re.compile(r"^ +[\d.]+ +[\d.]+ +\d+ +(\d+) +(?:\d+ +)?(\w+)$", re.MULTILINE)
COLLECTED = re.compile(r"Collected : (\d+)$", re.MULTILINE)
PEAK_ROW = re.compile(r"^VmHWM:\s+(\d+) kB$", re.MULTILINE)


@dataclass
class Cost:
    """Seconds on the clock, seconds of the processor, and MB at most."""
    seconds: float
    processor: float
    peak: float


def peak_so_far(process_id, known):
    """The greatest memory of a process in MB, or what was known of it, once it has ended. What the system tells of a process that was
    waited for counts the memory of the one that started it too, and cannot be used."""
    try:
        with open(f"/proc/{process_id}/status", encoding="ascii") as file:
            found = PEAK_ROW.search(file.read())
    except FileNotFoundError:
        return known
    return int(found[1]) / 1024 if found else known


def measured(command, source=subprocess.DEVNULL, result=None):
    """The cost of a run over this standard input, which has to end with status 0. What it prints goes to the file `result`, if there
    is one. Memory is asked for each two milliseconds."""
    with tempfile.TemporaryFile() as output:
        start = time.monotonic()
        process = subprocess.Popen(command, stdin=source, stdout=result or output, stderr=output)
        peak, ended = 0, 0
        while not ended:
            peak = peak_so_far(process.pid, peak)
            time.sleep(0.002)
            ended, status, used = os.wait4(process.pid, os.WNOHANG)
        seconds = time.monotonic() - start
        process.returncode = os.waitstatus_to_exitcode(status)
        if process.returncode != 0:
            output.seek(0)
            sys.exit(f"{command}: status {process.returncode}\n{output.read()[-2000:].decode(errors='replace')}")
    return Cost(seconds, used.ru_utime + used.ru_stime, peak)


def system_calls(command):
    """How many system calls a run makes, by their names, or none where they cannot be counted."""
    if shutil.which("strace") is None:
        return None
    with tempfile.NamedTemporaryFile("r") as table:
        done = subprocess.run(["strace", "-f", "-c", "-o", table.name, *command], stdin=subprocess.DEVNULL, capture_output=True, check=False)
        if done.returncode != 0:
            return None
        return {name: int(count) for count, name in STRACE_ROW.findall(table.read()) if name != "total"}


def instructions(command):
    """How many instructions a run takes in the program and its libraries, or none where they cannot be counted."""
    if shutil.which("valgrind") is None:
        return None
    counting = ["valgrind", "--tool=callgrind", "--callgrind-out-file=/dev/null"]
    done = subprocess.run([*counting, *command], stdin=subprocess.DEVNULL, capture_output=True, text=True, errors="replace", check=False)
    found = COLLECTED.search(done.stderr)
    return int(found[1]) if done.returncode == 0 and found else None
