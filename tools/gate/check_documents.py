#!/usr/bin/env python3
"""Holds the documents against the repository: check_documents.py [--write] [ROOT]

It reads the pages at the top, docs/*.md and the READMEs below bindings/, crates/, node/ and tools/, and says each place
where a page names what isn't there:

- a link to a file of the repository, or a path in backquotes that begins with a folder of it;
- a crate: a word that begins with hw_ and isn't in crates.txt;
- a name in backquotes, as `deliver` or `Core::deliver`, whose words stand nowhere in the sources;
- a crate that no row of docs/ARCHITECTURE.md begins with;
- a source of a crate with `unsafe` that docs/PROVED.md doesn't name;
- an `unsafe impl` whose proof isn't there: without that file the proof of the crate passes, too.

It also says lines above 120 columns, tables and quoted text left out, and the marks that a merge leaves. The status is
1 if anything was said, and 2 if the repository can't be read."""

import argparse
import re
import sys
from pathlib import Path

WIDTH = 120
FOLDERS = ("crates", "docs", "tools", "bindings", "node", ".ci")
SOURCES = ("*.rt", "*.antt", "*.py", "*.rs", "*.h", "*.c", "*.js", "*.sh", "*.toml", "*.txt", "stdin", "stdout")
LINK = re.compile(r"\[[^\]]*\]\(([^)\s]+)\)")
QUOTED = re.compile(r"`([^`]+)`")
CRATE = re.compile(r"\bhw_[a-z0-9_]*[a-z0-9]\b")
NAME = re.compile(r"[A-Za-z_][A-Za-z0-9_]*(?:::[A-Za-z_][A-Za-z0-9_]*)*")
MERGE = re.compile(r"<{7} |={7}$|>{7} ")
UNSAFE = re.compile(r"^(?!\s*//).*\bunsafe\b", re.MULTILINE)
CROSSES = re.compile(r"^\s*unsafe impl(?:<[^>]*>)? (\w+) for (\w+)", re.MULTILINE)
# Names of others, and the shortest name that is no variable of a formula.
OTHERS = {"highway_core"}
SHORTEST = 3


def pages_of(root):
    """The documents, as paths."""
    found = [*sorted(root.glob("*.md")), *sorted((root / "docs").glob("*.md"))]
    for folder in ("bindings", "crates", "node", "tools"):
        found += sorted((root / folder).glob("**/README.md"))
    return [page for page in found if page.is_file() and "target" not in page.parts]


def crates_of(root):
    """What crates.txt says: for each crate the libraries that it uses, in its order."""
    found = {}
    for line in (root / "crates.txt").read_text(encoding="utf-8").splitlines():
        said = re.match(r"(\w+)[^:#]*:(.*)", line)
        if said:
            found[said[1]] = said[2].split()
    return found


def words_of(root):
    """Each word of the sources, file names among them."""
    found = set()
    for folder in ("crates", "tools", "bindings", "node"):
        for kind in SOURCES:
            for path in (root / folder).rglob(kind):
                if "out" in path.parts or "target" in path.parts or not path.is_file():
                    continue
                found.update(re.findall(r"\w+", path.read_text(encoding="utf-8", errors="replace")))
                found.update(path.parts)
    return found


def prose(text):
    """The lines of a page with their numbers, those of quoted blocks left out."""
    is_quoted = False
    for number, line in enumerate(text.splitlines(), 1):
        if line.lstrip().startswith("```"):
            is_quoted = not is_quoted
        elif not is_quoted:
            yield number, line


def lacking_paths(page, root, line):
    """What a line links to, or has as a path in backquotes, and isn't there."""
    for target in LINK.findall(line):
        file = target.split("#")[0]
        if file and "://" not in file and not (page.parent / file).exists():
            yield f"links to {target}, which isn't there"
    for text in QUOTED.findall(line):
        if re.fullmatch(r"[\w./-]+", text) and text.split("/")[0] in FOLDERS and "/" in text:
            if not (root / text).exists() and not text.endswith("/out/highway"):
                yield f"names the path {text}, which isn't there"


def lacking_names(line, crates, words):
    """The crates and the names in backquotes of a line that stand nowhere."""
    for crate in CRATE.findall(line):
        if crate not in crates and crate not in words:
            yield f"names {crate}, which is no crate"
    for text in QUOTED.findall(line):
        if NAME.fullmatch(text):
            for word in text.split("::"):
                if len(word) >= SHORTEST and word not in words and word not in crates and word not in OTHERS:
                    yield f"names `{text}`, and {word} stands nowhere in the sources"


def faults_of(page, root, crates, words):
    """What is wrong with a page, line by line."""
    for number, line in prose(page.read_text(encoding="utf-8")):
        said = [*lacking_paths(page, root, line), *lacking_names(line, crates, words)]
        if MERGE.match(line):
            said.append("is the mark of a merge")
        if len(line) > WIDTH and not line.lstrip().startswith("|"):
            said.append(f"has {len(line)} columns, above {WIDTH}")
        for what in said:
            yield f"{page.relative_to(root)}:{number}: {what}"


def lacking_rows(root, crates):
    """The crates that no row of the tables in docs/ARCHITECTURE.md begins with."""
    page = root / "docs" / "ARCHITECTURE.md"
    if not page.is_file():
        return []
    named = set()
    for line in page.read_text(encoding="utf-8").splitlines():
        if line.startswith("|"):
            named.update(re.findall(r"\w+", line.split("|")[1]))
    return [f"docs/ARCHITECTURE.md: no row names the crate {it}" for it in crates if it not in named]


def sources_of(root, crates):
    """Each source of the crates: its path, the folder of what is proved of it by hand, and its text."""
    for crate in crates:
        folder = root / "crates" / crate
        for path in sorted((folder / "src").rglob("*.rt")):
            module = path.relative_to(folder / "src").with_suffix("")
            proofs = folder / "proofs" / (module.parent if module.name in ("lib", "main") else module)
            yield path.relative_to(root), proofs, path.read_text(encoding="utf-8")


def lacking_trust(root, crates):
    """What is unsafe in the sources of the crates, and has no line in docs/PROVED.md or no proof."""
    page = root / "docs" / "PROVED.md"
    said = page.read_text(encoding="utf-8") if page.is_file() else None
    for path, proofs, text in sources_of(root, crates):
        if said is not None and UNSAFE.search(text) and str(path) not in said:
            yield f"docs/PROVED.md: nothing is said of {path}, which has `unsafe`"
        for trait, kind in CROSSES.findall(text):
            proof = proofs / kind / "TheSendSync" / f"{trait}.antt"
            if not proof.is_file():
                yield f"{path}: `unsafe impl {trait} for {kind}` has no proof {proof.relative_to(root)}"


def main(arguments=None):
    parser = argparse.ArgumentParser(description=__doc__, formatter_class=argparse.RawDescriptionHelpFormatter)
    parser.add_argument("root", nargs="?", default=Path(__file__).resolve().parents[2], type=Path, metavar="ROOT")
    words = parser.parse_args(arguments)
    if not (words.root / "crates.txt").is_file():
        print(f"check_documents: {words.root} has no crates.txt", file=sys.stderr)
        return 2
    crates = crates_of(words.root)
    faults = [*lacking_rows(words.root, crates), *lacking_trust(words.root, crates)]
    known = words_of(words.root)
    for page in pages_of(words.root):
        faults += faults_of(page, words.root, crates, known)
    for it in faults:
        print(it)
    print(f"documents: {len(faults)} places to mend" if faults else "documents: each name is there")
    return 1 if faults else 0


if __name__ == "__main__":
    sys.exit(main())
