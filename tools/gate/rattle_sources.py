"""The crates of this repository as a check of the toolchain reads them: their list, their functions, their interfaces.

What a check of a crate reads of a library below it, by the toolchain's own help (`rattle check --help`, "--extern",
and the paragraph on the three antt libraries of a crate):

- the library's public interface: its public items, the private ones that they mention, and no code;
- its specs library: the files of specs/ and the contracts of what the interface has;
- its proofs library, as far as its facade passes it on: the files of proofs/ that `mod` lines declare, and of each
  function the theorem that it meets its contract. A function's code and its own proof files are private to it.

So a library's interface is here: specs/, the lemma files of proofs/, and src/ less the bodies of functions and less
the functions that only the library itself can name (neither `pub` nor in an `impl` of a trait). Whatever is not
surely hidden stays: all types, constants, traits with their bodies, `impl` heads, ghost items, `use` lines and
attributes but those that only tell how a function is proved or compiled. That is sound: two states of a library with
one interface give the same to each check above. It is coarse: a private type or a lemma's proof counts too. Of what
lies below a program its check reads the code as well, so there all of src/ counts.

Functions are found by the layout of `rt fmt`, which the gate enforces: a body starts with a line that ends with `{`
at the function's own indent, and ends with a line `}` at that indent. Where a text is laid out otherwise, a body is
missed and counts as interface, so that nothing is lost."""

import hashlib
import os
import re
from dataclasses import dataclass, field

PARTS = ("src", "specs", "proofs")
# Files in a folder of proofs/ that belong to the function of that name alone.
OF_A_FUNCTION = ("Answers.antt", "Invariants.antt", "Proof.antt")
HEAD = re.compile(r'( *)(pub(?:\([^)]*\))? )?(?:const |unsafe |extern "C" )*fn (\w+)')
BLOCK = re.compile(r"(?:unsafe )?impl\b|(?:pub(?:\([^)]*\))? )?(?:unsafe )?trait (\w+)")
HINT = re.compile(r"\s*#\[(tactic|inline|cold)\b")


class SourceError(Exception):
    """A file that is not as this repository lays its files out, with its place."""


@dataclass
class Function:
    """A function with a body: its name with its type's or trait's, and its lines, counted from 0."""

    name: str
    first: int
    body: int
    last: int
    is_hidden: bool
    cycle: str = ""


@dataclass
class Crate:
    """A crate of crates.txt, with the libraries that its line names."""

    name: str
    folder: str
    line: str
    libraries: list = field(default_factory=list)
    of_kit: list = field(default_factory=list)

    def below(self):
        """Returns the repository's libraries below the crate, each after those that it uses."""
        found = {}
        for library in self.libraries:
            for it in [*library.below(), library]:
                found.setdefault(it.name, it)
        return list(found.values())

    def is_program(self):
        return os.path.isfile(f"{self.folder}/src/main.rt")

    def pages_folder(self):
        return f"{self.folder}/must-fail"


def text_of(path):
    with open(path, encoding="utf-8") as it:
        return it.read()


def crates_of(root):
    """Returns the crates that crates.txt lists, by name."""
    rows = {}
    for number, row in enumerate(text_of(f"{root}/crates.txt").split("\n"), 1):
        head, _, names = row.partition("#")[0].partition(":")
        if not head.strip():
            continue
        name = head.split()[0]
        if name in rows:
            raise SourceError(f"crates.txt:{number}: {name} is listed a second time")
        rows[name] = (" ".join([*head.split(), ":", *sorted(names.split())]), names.split())
    made = {name: Crate(name, f"{root}/crates/{name}", line) for name, (line, _) in rows.items()}
    for name, (_, names) in rows.items():
        made[name].libraries = [made[it] for it in names if it in made]
        made[name].of_kit = [it for it in names if it not in made]
    stop_on_rings(made)
    return made


def stop_on_rings(crates):
    """Refuses crates that stand on one another in a ring."""
    done = set()

    def visit(crate, above):
        if crate.name in above:
            raise SourceError(f"crates.txt: {crate.name} stands on itself")
        if crate.name not in done:
            for library in crate.libraries:
                visit(library, above | {crate.name})
            done.add(crate.name)

    for crate in crates.values():
        visit(crate, frozenset())


def files_of(folder, parts=PARTS):
    """Returns the paths of the files in these parts of a crate, from its folder, in order."""
    found = []
    for part in parts:
        for at, _, names in os.walk(f"{folder}/{part}"):
            found += [os.path.relpath(f"{at}/{name}", folder) for name in names]
    return sorted(found)


def owner_of(line):
    """Returns how the check names the functions of an `impl` or a `trait`: by the type, and the trait after it."""
    trait = BLOCK.match(line)
    if trait and trait[1]:
        return trait[1]
    parameters, rest = cut_parameters(re.sub(r"^(unsafe )?impl", "", line))
    rest = re.sub(r"\s*(where\b.*)?\{?\s*$", "", rest)
    of, is_for, type_name = rest.partition(" for ")
    kept = [word_of(it, parameters) for it in ([type_name, of] if is_for else [of])]
    return kept[0][0] + (kept[1][0] + "".join(kept[1][1:]) if is_for else "")


def block_head(rows, at):
    """Returns the head of the `impl` or `trait` that begins at that line, on one line."""
    for end in range(at, len(rows)):
        if rows[end].rstrip().endswith(("{", "}")):
            return " ".join(row.strip() for row in rows[at : end + 1])
    return rows[at]


def cut_parameters(text):
    """Splits the parameters that `impl<..>` declares from what follows them."""
    text = text.strip()
    if not text.startswith("<"):
        return set(), text
    depth = 0
    for at, char in enumerate(text):
        depth += (char == "<") - (char == ">" and text[at - 1] != "-")
        if not depth:
            names = re.findall(r"(?:^|,)\s*(?:const )?('?\w+)", text[1:at])
            return set(names), text[at + 1 :].strip()
    return set(), text


def word_of(text, parameters):
    """Returns the last word of a type's path, and the words of its arguments but the parameters, as names have them."""
    text = re.sub(r"&(?:'\w+ )?mut ", "RefMut ", text)
    text = re.sub(r"&(?:'\w+ ?)?", "Ref ", text)
    words = [it for it in re.findall(r"'?\w+(?!\s*::|\w)", text) if it not in parameters and it[0] != "'"]
    return [it[:1].upper() + it[1:] for it in words] or [""]


def body_of(rows, at, indent):
    """Returns the first and the last line of the body of the function whose head is at that line, or None."""
    for start in range(at, len(rows)):
        row = rows[start].rstrip()
        depth = len(row) - len(row.lstrip())
        if row == indent + "{" or (row.endswith(" {") and depth == len(indent)):
            for last in range(start + 1, len(rows)):
                if rows[last].rstrip() == indent + "}":
                    return start + 1, last
            return None
        if start > at and row == indent + "{}":
            return None
        if row.endswith(";") or (start > at and row == indent + "}"):
            return None
        if start == at and row.endswith("}"):
            return None
    return None


def functions_of(text):
    """Returns the functions of a .rt file that have a body over lines of its own, in order."""
    rows, found, owner, is_open, cycle, at = text.split("\n"), [], "", False, "", 0
    while at < len(rows):
        row = rows[at]
        if BLOCK.match(row):
            # (an `impl` of a trait and a `trait` hide none of their functions)
            head = block_head(rows, at)
            owner, is_open = owner_of(head), " for " in head or bool(BLOCK.match(head)[1])
        elif row == "}":
            owner, is_open = "", False
        said = re.match(r"\s*#\[cycle\((\w+)\)\]", row)
        cycle = said[1] if said else cycle
        head = HEAD.match(row)
        if head:
            body = body_of(rows, at, head[1])
            if body:
                name = f"{owner}::{head[3]}" if owner else head[3]
                hidden = not is_open and (head[2] or "").strip() != "pub"
                found.append(Function(name, at, *body, hidden, cycle))
                at = body[1]
            cycle = ""
        at += 1
    return found


def without_comments(text, mark):
    """Returns the lines of a text that are neither empty nor a comment."""
    return [row.rstrip() for row in text.split("\n") if row.strip() and not row.lstrip().startswith(mark)]


def has_long_string(text):
    """Returns whether a string may go over several lines, so that a line of it could look like a comment."""
    for row in text.split("\n"):
        if row.lstrip().startswith("//"):
            continue
        plain = re.sub(r"'(\\.|[^'\\])'", "", row)
        if re.sub(r"\\.", "", plain).count('"') % 2:
            return True
    return False


def heard(path, text):
    """Returns a text less its lines of comment, which no check hears, or all of it where they can't be told."""
    if path.endswith(".antt"):
        return "\n".join(without_comments(text, "--"))
    return text if has_long_string(text) or "/*" in text else "\n".join(without_comments(text, "//"))


def interface_of(text):
    """Returns a .rt file as the crates above read it: no bodies of functions, and no functions that they can't name."""
    rows = text.split("\n")
    traits, gone = trait_lines(rows), hint_lines(rows)
    for it in functions_of(text):
        if it.first not in traits:
            gone.update(range(it.first, it.last + 1) if it.is_hidden else range(it.body, it.last))
    return heard("file.rt", "\n".join(row for at, row in enumerate(rows) if at not in gone))


def trait_lines(rows):
    """Returns the lines inside traits, whose bodies each `impl` above takes as they stand."""
    found, inside = set(), False
    for at, row in enumerate(rows):
        begins = BLOCK.match(row)
        inside = (inside and row != "}") or bool(begins and begins[1])
        if inside:
            found.add(at)
    return found


def hint_lines(rows):
    """Returns the lines of the attributes that tell only how a function is proved or compiled."""
    found, inside = set(), False
    for at, row in enumerate(rows):
        inside = inside or bool(HINT.match(row))
        if inside:
            found.add(at)
            inside = not row.rstrip().endswith("]")
    return found


def is_of_a_function(path):
    """Returns whether a file of proofs/ is private to one function's proof."""
    parts = path.split("/")
    return parts[0] == "proofs" and len(parts) > 2 and parts[-1] in OF_A_FUNCTION


def sum_of(*parts):
    return hashlib.sha256(repr(parts).encode()).hexdigest()


def line_read(crate, texts):
    """Returns the crate's line, less the libraries that none of these texts names: a check reads nothing of those."""
    words = set(re.findall(r"\w+", " ".join(texts)))
    head, _, names = crate.line.partition(":")
    return " ".join([head.strip(), ":", *(it for it in names.split() if it in words)])


def own_sum(crate):
    """Returns a checksum of what the verdict on a page reads of its own crate."""
    texts = [(it, heard(it, text_of(f"{crate.folder}/{it}"))) for it in files_of(crate.folder)]
    return sum_of(line_read(crate, [text for _, text in texts]), texts)


def interface_sum(library, with_code=False):
    """Returns a checksum of what a check of a crate above reads of the library."""
    texts, all_texts = [], []
    for path in files_of(library.folder):
        text = text_of(f"{library.folder}/{path}")
        all_texts.append(heard(path, text))
        if path.endswith(".rt") and not with_code:
            texts.append((path, interface_of(text)))
        elif not is_of_a_function(path):
            texts.append((path, all_texts[-1]))
    return sum_of(line_read(library, all_texts), texts)


def below_sum(crate, known):
    """Returns a checksum of what a check reads of the libraries below a crate; `known` keeps theirs for the next."""
    with_code = crate.is_program()
    sums = []
    for library in crate.below():
        key = library.name, with_code
        if key not in known:
            known[key] = interface_sum(library, with_code)
        sums.append((library.name, known[key]))
    return sum_of(sorted(sums))
