"""Runs the converter of isync's configuration and states."""
import importlib.machinery
import importlib.util
import os
import subprocess

from tests.support.places import TOP

CONVERTER = os.path.join(TOP, "bin", "mbsync-from-isync")


def convert(home, *words):
    """The status of the converter in this home folder, and what it prints, with HOME written as ~."""
    environment = {**os.environ, "HOME": home}
    environment.pop("XDG_STATE_HOME", None)
    done = subprocess.run([CONVERTER, *words], env=environment, capture_output=True, text=True, check=False)
    return [done.returncode, *(done.stdout + done.stderr).replace(home, "~").splitlines()]


CHANGES = ("rename", "replace", "remove", "rmdir", "link", "mkdir", "fsync")


def command_of(path):
    """The module of a command, whose `main` takes its words."""
    loader = importlib.machinery.SourceFileLoader(os.path.basename(path).replace("-", "_"), path)
    command = importlib.util.module_from_spec(importlib.util.spec_from_loader(loader.name, loader))
    loader.exec_module(command)
    return command


def killed_at(command, home, words, calls):
    """The status of a command in a process of its own, which ends at once, with 99, where it has made so many calls that change the disk."""
    child = os.fork()
    if child:
        return os.waitstatus_to_exitcode(os.waitpid(child, 0)[1])
    os.environ["HOME"] = home
    os.environ.pop("XDG_STATE_HOME", None)
    os.dup2(os.open(os.devnull, os.O_WRONLY), 1)
    os.dup2(os.open(os.devnull, os.O_WRONLY), 2)
    left = iter(range(calls))

    def counting(call):
        def made(*its, **more):
            if next(left, None) is None:
                os._exit(99)
            return call(*its, **more)
        return made

    status = 98
    try:
        for name in CHANGES:
            # What is synced would cost time, and is there after a kill of a process anyhow.
            setattr(os, name, counting(getattr(os, name) if name != "fsync" else lambda _: None))
        status = command.main(list(words))
    finally:
        os._exit(status)
