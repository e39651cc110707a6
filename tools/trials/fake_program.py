"""A program that plays `highway` in tests of the tools that start it: each command of it runs lines of Python."""

import sys
import threading
import time
from pathlib import Path

# A pause that is none of `time.sleep`, which a test may replace.
WAIT = threading.Event()
# It runs the lines of a command with the words behind it as `words`, and ends with 1 at a command that has no lines.
# Little is imported, so that it starts fast; a file that is copied is there whole or not at all.
HEAD = '''#!{python} -SEB
import os, sys, time

words = sys.argv[2:]
sys.stdout.reconfigure(line_buffering=True)


def read(name):
    with open(name, "rb") as file:
        return file.read()


def write(name, data, mode="wb"):
    with open(name, mode) as file:
        file.write(data)


def copy(source, target):
    write(target + ".new", read(source))
    os.replace(target + ".new", target)


exec({commands!r}.get(sys.argv[1], "sys.exit(1)"))
'''


def fake_program(folder, **commands):
    """The path of an executable in this folder, whose commands run these lines."""
    path = Path(folder) / "fake_program"
    path.write_text(HEAD.format(python=sys.executable, commands=commands), encoding="utf-8")
    path.chmod(0o755)
    return path


def await_files(folder, *patterns, seconds=15):
    """Waits until there is a file of each of these patterns in a folder."""
    until = time.monotonic() + seconds
    while not all(any(Path(folder).glob(pattern)) for pattern in patterns):
        if time.monotonic() > until:
            raise TimeoutError(f"no file {' or '.join(patterns)} in {seconds} seconds")
        WAIT.wait(0.02)
