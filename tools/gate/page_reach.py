"""Which functions to ask first about a page that changes more than bodies.

A page is refused as soon as one function of the crate is refused with it, and a whole check costs far more than the
check of a few functions. So the functions that most likely see the change are asked first: those whose text names what
the page changes, or else a definition of specs/ that rests on it. What is found here decides nothing: where none of
these functions is refused, the whole crate is checked."""

import re

from gate.rattle_pages import key_of
from gate.rattle_sources import files_of, functions_of, heard, text_of

ITEM = re.compile(r"\s*(?:pub(?:\([^)]*\))? )?(?:const|static|struct|enum|type|trait|ghost|fn) (\w+)")
LAW = re.compile(r"(?:pub )?fn (\w+)")
# What may stand before the name in the first line of a declaration of specs/.
BEFORE = {"pub", "abbrev", "unfoldable", "record", "data"}
NO_NAME = {"use", "mod", "infix", "infixl", "infixr"}


def first_asked(page, place, crate):
    """Returns the keys of the functions to ask first about a page that changes more than bodies, and those to ask next
    if none of these is refused."""
    texts = {it: text_of(f"{crate.folder}/{it}") for it in files_of(crate.folder, ("src", "specs"))}
    layers = list(reached(names_changed(page, texts), texts))
    first = place.functions or (layers[0] if layers else in_files(page, texts))
    return first, set().union(*layers) - first


def names_changed(page, texts):
    """Returns the names of the declarations and items that a page changes."""
    names = set()
    for file, old, _ in page.changes:
        if file in texts and old in texts[file]:
            rows = texts[file].split("\n")
            line = texts[file].count("\n", 0, texts[file].find(old))
            names.add(declared_at(rows, line) if file.startswith("specs/") else item_at(file, texts[file], line))
    return names - {""}


def item_at(file, text, line):
    """Returns the name of the item that a line of a .rt file declares, or of the function whose head it is in."""
    for it in functions_of(text):
        if it.first <= line < it.body:
            return it.name.rpartition("::")[2]
    item = ITEM.match(text.split("\n")[line])
    return item[1] if item else ""


def declared_at(rows, line):
    """Returns the name of the declaration of a file of specs/ in which a line stands, or an empty text."""
    while line >= 0 and (not rows[line] or rows[line][0].isspace() or rows[line].startswith("--")):
        line -= 1
    return declared_by(rows[line]) if line >= 0 else ""


def declared_by(row):
    """Returns the name that a line without an indent declares or tells the value of, or an empty text."""
    words = [it for it in row.split() if it not in BEFORE]
    return "" if not words or words[0] in NO_NAME or row.startswith(("#", "--")) else words[0]


def reached(names, texts):
    """Gives the keys of the functions that name one of these, then with those that name a definition that rests on them,
    and so on; each time more than before."""
    found = set()
    while names:
        now = {key for file, text in texts.items() if file.startswith("src/") for key in naming(file, text, names)}
        if now > found:
            yield now
        above = names | {it for file, text in texts.items() if file.startswith("specs/") for it in resting(text, names)}
        found, names = now, above if above != names else set()


def naming(file, text, names):
    """Returns the keys of the functions of a file whose contract or body names one of these."""
    rows = text.split("\n")
    spans = [(key_of(file, it), it.first, it.last) for it in functions_of(text)] + laws_of(file, rows)
    return {key for key, first, last in spans if mentions("\n".join(rows[first:last]), names)}


def laws_of(file, rows):
    """Returns the laws of a file of src/, which are functions without a body: the key, the first and the last line."""
    found, name, first = [], "", 0
    for at, row in enumerate(rows):
        law = LAW.match(row)
        name, first = (law[1], at) if law else (name, first)
        if row == "{}" and name:
            found.append(((file, name), first, at))
            name = ""
    return found


def resting(text, names):
    """Returns the declarations of a file of specs/ whose text names one of these."""
    found, name = set(), ""
    for row in heard("a.antt", text).split("\n"):
        if row and not row[0].isspace():
            name = declared_by(row)
        if name and mentions(row, names):
            found.add(name)
    return found


def in_files(page, texts):
    """Returns the keys of all functions of the files of src/ that a page changes."""
    files = {file for file, _, _ in page.changes if file.startswith("src/") and file in texts}
    return {key_of(file, it) for file in files for it in functions_of(texts[file])}


def mentions(text, names):
    words = "|".join(re.escape(it) for it in sorted(names))
    return bool(re.search(rf"(?<![\w◌-])(?:{words})(?![\w◌-])", text))
