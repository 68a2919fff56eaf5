"""How much memory a program takes."""
import os
import re
import subprocess
import time


def fill(writer):
    """Fills a pipe, so that the next write waits."""
    os.set_blocking(writer, False)
    try:
        while True:
            os.write(writer, bytes(4096))
    except BlockingIOError:
        os.set_blocking(writer, True)


def asked(child, file):
    """What the system tells of a program that runs or has ended, but was not waited for."""
    with open(f"/proc/{child.pid}/{file}", encoding="ascii") as text:
        return text.read()


def is_answering(child):
    """Whether the program waits to write to its standard output: system call 1 of file 1."""
    return asked(child, "syscall").startswith("1 0x1 ")


def peak(arguments, source=subprocess.DEVNULL):
    """The most memory in bytes that a program takes until it writes its answer, asked for while it waits to write: what the
    system tells of a process that has ended counts the memory of the one that started it."""
    reader, writer = os.pipe()
    fill(writer)
    child = subprocess.Popen(arguments, stdin=source, stdout=writer, stderr=subprocess.DEVNULL)
    while not is_answering(child):
        if child.poll() is not None:
            raise SystemExit(f"{arguments}: ended without an answer")
        time.sleep(0.01)
    kilobytes = int(re.search(r"^VmHWM:\s+(\d+) kB$", asked(child, "status"), re.MULTILINE).group(1))
    child.kill()
    child.wait()
    os.close(reader)
    os.close(writer)
    return kilobytes * 1024
