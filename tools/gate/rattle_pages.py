"""Pages of wrong bodies: what mistake each is, what it changes, and where that stands.

A page is a file of crates/NAME/must-fail/. Its first line says what mistake it is. Then a line `file: src/x.rt` and
pairs of lines `old: TEXT` and `new: TEXT` say what it changes, one line each. Each old text stands in that file exactly
once, where the pairs above it are applied. A page whose body turned out to be right says so in a line `right: WHY`. No
other line is read. `rt ci` tries those whose name ends in .edit, by the same rules."""

import os
import re
from dataclasses import dataclass, field

from gate.rattle_sources import PARTS, functions_of, sum_of, text_of

ENDS = (".edit", ".md")
RECORD = "TRIED.md"
READ = ("file:", "old:", "new:")


@dataclass
class Page:
    """A page: its name, the mistake in words, why it may be right, and its changes (file, old text, new text)."""

    name: str
    mistake: str = ""
    why_right: str = ""
    changes: list = field(default_factory=list)
    fault: str = ""

    def sum(self):
        return sum_of(self.name, self.changes, bool(self.why_right))


@dataclass
class Place:
    """Where a page stands: the functions whose bodies it changes, its lines, and whether it changes more."""

    functions: set = field(default_factory=set)
    lines: set = field(default_factory=set)
    is_beyond_bodies: bool = False


def page_of(name, text):
    """Reads a page; what is wrong with its form stands in `fault`."""
    page, file, old, is_open = Page(name), "", "", False
    rows = text.split("\n")
    page.mistake = "" if rows[0].startswith(READ) else rows[0].lstrip("#-/ ").strip()
    for number, row in enumerate(rows, 1):
        if row.startswith("right: "):
            page.why_right = row[len("right: ") :].strip()
        elif row.startswith("file: "):
            file = row[len("file: ") :].strip()
        elif row.startswith("old: "):
            if is_open:
                page.fault = page.fault or f"line {number}: the old text above has no new text"
            old, is_open = row[len("old: ") :], True
        elif row.startswith("new:"):
            if not file or not is_open:
                page.fault = page.fault or f"line {number}: a new text without a file or an old text"
            page.changes.append((file, old, re.sub(r"\A ", "", row[len("new:") :])))
            is_open = False
    page.fault = page.fault or fault_of(page, is_open)
    return page


def fault_of(page, is_open):
    """Returns what is wrong with the form of a page that was read, or an empty text."""
    if not page.mistake:
        return "its first line doesn't say what mistake it is"
    if is_open or not page.changes:
        return "it changes nothing: it has no pair of an old and a new text"
    for file, old, new in page.changes:
        if os.path.normpath(file) != file or not file.startswith(tuple(f"{it}/" for it in PARTS)):
            return f"{file or 'no file'} is no file of src/, specs/ or proofs/"
        if old == new:
            return f"it changes nothing in {file}: the old and the new text are the same"
    if page.why_right and page.name.endswith(".edit"):
        return "a page that says why it is right ends in .md, since the gate wants each .edit refused"
    return ""


def pages_of(crate):
    """Returns the pages of a crate, and what is wrong with other files of its must-fail/."""
    pages, faults = [], []
    folder = crate.pages_folder()
    for name in sorted(os.listdir(folder)) if os.path.isdir(folder) else []:
        if name.endswith(ENDS) and name != RECORD:
            pages.append(page_of(name, text_of(f"{folder}/{name}")))
        elif name != RECORD:
            faults.append(f"{crate.name}/{name}: a page's name ends in .edit or .md")
    return pages, faults


def applied(folder, pages):
    """Returns the texts that the pages make of a crate's files, by path, or the first that doesn't apply, and why."""
    texts = {}
    for page in pages:
        for file, old, new in page.changes:
            if file not in texts:
                if not os.path.isfile(f"{folder}/{file}"):
                    return None, page, f"there is no file {file}"
                texts[file] = text_of(f"{folder}/{file}")
            count = texts[file].count(old)
            if count != 1:
                return None, page, f"an old text stands in {file} {count} times, and not once: {old.strip()[:60]}"
            texts[file] = texts[file].replace(old, new)
    return texts, None, ""


def place_of(page, folder):
    """Returns where a page that applies stands. Old and new texts are one line each, so lines keep their numbers."""
    place, texts, known = Place(), {}, {}
    for file, old, new in page.changes:
        text = texts.get(file) or text_of(f"{folder}/{file}")
        line = text.count("\n", 0, text.find(old))
        texts[file] = text.replace(old, new)
        place.lines.add((file, line + 1))
        if file not in known:
            known[file] = functions_of(text) if file.startswith("src/") else []
        inside = [it for it in known[file] if it.body <= line < it.last]
        place.is_beyond_bodies |= not inside
        place.functions |= {key_of(file, it) for it in inside}
    return place


def key_of(file, function):
    """Returns what tells a function from others. Those of a cycle of calls have one proof, so they count as one."""
    return (file, f"+{function.cycle}" if function.cycle else function.name)


def names_of(key, crate_name, folder):
    """Returns how the check may name the functions of that key: by module, or a method by its type's module."""
    file, name = key
    inside = file[len("src/") : -len(".rt")].split("/")
    module = "::".join([crate_name, *(inside[:-1] if inside[-1] in ("lib", "main", "mod") else inside)])
    names = [name]
    if name.startswith("+"):
        names = [it.name for it in functions_of(text_of(f"{folder}/{file}")) if it.cycle == name[1:]]
    return module, names


def paths_of(key, crate_name, folder):
    """Returns how a check is asked for the functions of that key: by path below the crate, or a method by its type."""
    module, names = names_of(key, crate_name, folder)
    inside = module.partition("::")[2]
    return [it if "::" in it or not inside else f"{inside}::{it}" for it in names]


def is_named(told, key, crate_name, folder):
    """Returns whether a function that the check told of is one of that key, or a closure in it."""
    module, names = names_of(key, crate_name, folder)
    for name in names:
        if "::" not in name and (told == f"{module}::{name}" or told.startswith(f"{module}::{name}::")):
            return True
        if "::" in name and re.match(rf"{crate_name}::(\w+::)*{re.escape(name)}(::|\Z)", told):
            return True
    return False
