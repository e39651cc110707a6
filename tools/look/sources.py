"""The state of the sources as a sum, over a crate and all crates of the repository below it."""

import hashlib
import os

from gate.rattle_sources import PARTS, crates_of, files_of
from look.kit import LINE

ROOT = os.path.dirname(os.path.dirname(os.path.dirname(os.path.abspath(__file__))))


def reached(crate):
    """Returns the crate and those below it, by name."""
    found, left = {}, [crate]
    while left:
        one = left.pop()
        if one.name not in found:
            found[one.name] = one
            left += one.libraries
    return found


def sum_of_sources(name, parts=("src",), root=ROOT):
    """Returns the SHA-256 of the kit's line, and of these parts of the crate and of those below it."""
    found = hashlib.sha256(LINE.encode())
    for _, crate in sorted(reached(crates_of(root)[name]).items()):
        found.update(repr((crate.name, crate.line)).encode())
        for path in files_of(crate.folder, parts):
            with open(f"{crate.folder}/{path}", "rb") as it:
                found.update(repr((path, it.read())).encode())
    return found.hexdigest()


def sum_of_proofs(name, root=ROOT):
    """Returns the sum of all that a proof of the crate reads."""
    return sum_of_sources(name, PARTS, root)


def sum_of_file(path):
    """Returns the SHA-256 of a file, or None where there is none."""
    try:
        with open(path, "rb") as it:
            return hashlib.sha256(it.read()).hexdigest()
    except OSError:
        return None
