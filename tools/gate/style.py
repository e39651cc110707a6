#!/usr/bin/env python3
"""Holds the tools to one style: style.py [--write]

- Each file of Python stands as `black` lays it out, by tools/pyproject.toml; --write lays them out.
- `pyflakes` finds nothing in them, and `shellcheck` nothing in the scripts.

What isn't on this machine is left out, with a word (Debian: black, pyflakes3, shellcheck). The status is 1 where
something was found."""

import argparse
import shutil
import subprocess
import sys
from pathlib import Path

ROOT = Path(__file__).resolve().parents[2]


def called(words):
    """Runs a command, and returns what it said where it found something."""
    ran = subprocess.run(words, cwd=ROOT, stdin=subprocess.DEVNULL, capture_output=True, text=True, check=False)
    return [ran.stdout + ran.stderr] if ran.returncode else []


def first_of(names):
    """The first of these commands that is here, or None with a word of it."""
    found = next((it for it in names if shutil.which(it)), None)
    if not found:
        print(f"style: skipped, since there is no {' or '.join(names)} here")
    return found


def main(words=None):
    parser = argparse.ArgumentParser(description=__doc__, formatter_class=argparse.RawDescriptionHelpFormatter)
    parser.add_argument("--write", action="store_true", help="lays the files out in place of saying that they aren't")
    asked = parser.parse_args(words)
    pythons = sorted((ROOT / "tools").rglob("*.py"))
    scripts = [*sorted((ROOT / "tools").rglob("*.sh")), ROOT / ".ci" / "run"]
    found = []
    black, pyflakes, shellcheck = first_of(["black"]), first_of(["pyflakes", "pyflakes3"]), first_of(["shellcheck"])
    if black:
        mode = [] if asked.write else ["--check"]
        found += called([black, "--quiet", "--config", "tools/pyproject.toml", *mode, "tools"])
        found = [f"these aren't laid out: run tools/gate/style.py --write\n{it}" for it in found]
    if pyflakes:
        found += called([pyflakes, *pythons])
    if shellcheck:
        found += called([shellcheck, "--severity", "warning", *scripts])
    for it in found:
        print(it)
    print(f"style: {len(found)} things to mend" if found else "style: as it should be")
    return 1 if found else 0


if __name__ == "__main__":
    sys.exit(main())
