"""The record of tried pages, crates/NAME/must-fail/TRIED.md: what was refused, by which function, and over what.

A page's checksum is over all that its verdict depends on: its changes, the crate's own files, the libraries of
crates.txt that they name, and the interfaces of the libraries below (rattle_sources.py says what that is, and why it is
enough). The toolchain's line stands in the head, apart from the checksums: another toolchain makes no record false that
was made, but whoever has one may want all tried again."""

import os
import re
from dataclasses import dataclass, field

from gate.rattle_pages import RECORD
from gate.rattle_sources import below_sum, own_sum, sum_of, text_of

ROW = re.compile(r"\| (\S+) \| ([0-9a-f]{24}) \| ([^|]*) \|")
SAID = """# Wrong bodies of {name}, as they were tried

`tools/wrong_bodies.py {name}` wrote this. `tools/wrong_bodies.py --current` says whether it still holds.

    kit: {kit}
    own: {own}
    below: {below}

| Page | Checksum | Refused by |
|---|---|---|
"""


@dataclass
class Base:
    """What all verdicts on a crate's pages hang on: sums of its own files, and of the interfaces below."""

    own: str
    below: str


@dataclass
class Record:
    """What a crate's record says: the toolchain, the sums of its base, and each page's checksum and verdict."""

    kit: str = ""
    own: str = ""
    below: str = ""
    pages: dict = field(default_factory=dict)


def base_of(crate, known):
    return Base(own_sum(crate)[:24], below_sum(crate, known)[:24])


def checksum(page, base):
    """Returns the checksum of all that the verdict on a page depends on."""
    return sum_of(page.sum(), base.own, base.below)[:24]


def read(crate):
    """Returns a crate's record; an empty one where there is none, and less where it can't be read."""
    path, record = f"{crate.pages_folder()}/{RECORD}", Record()
    if not os.path.isfile(path):
        return record
    text = text_of(path)
    for name in ("kit", "own", "below"):
        said = re.search(rf"^    {name}: (.*)$", text, re.M)
        setattr(record, name, said[1] if said else "")
    record.pages = {it[1]: (it[2], it[3]) for it in ROW.finditer(text)}
    return record


def write(crate, kit, base, verdicts):
    """Writes a crate's record of these pages: their names, with a checksum and a verdict in words each."""
    rows = [f"| {name} | {sum} | {said} |" for name, (sum, said) in sorted(verdicts.items())]
    text = SAID.format(name=crate.name, kit=kit, own=base.own, below=base.below) + "\n".join(rows) + "\n"
    path = f"{crate.pages_folder()}/{RECORD}"
    with open(f"{path}.new", "w", encoding="utf-8") as it:
        it.write(text)
    os.replace(f"{path}.new", path)


def stale(pages, record, base):
    """Returns the names of the pages that the record has not as they are now."""
    held = {name: sum for name, (sum, _) in record.pages.items()}
    return [it.name for it in pages if held.get(it.name) != checksum(it, base)]


def gone(pages, record):
    """Returns the names that the record has and no page does."""
    return sorted(set(record.pages) - {it.name for it in pages})


def why_stale(record, base):
    """Returns in words what changed since the record was made."""
    if not record.pages:
        return "nothing of it was tried"
    changed = ["its own files"] * (record.own != base.own) + ["an interface below"] * (record.below != base.below)
    return f"{' and '.join(changed)} changed" if changed else "pages were added or changed"
