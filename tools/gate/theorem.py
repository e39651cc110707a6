#!/usr/bin/env python3
"""Writes the links of docs/THEOREM.md, or holds the page against the definitions: theorem.py [--check] [ROOT]

Each theorem of the page has roots among the definitions of `crates/*/specs/**/*.antt`. What the roots stand on is the
page's list: each of these definitions has a line at the end of the page, `[Name]: FILE#Lline`, which this writes. The
text above has to link each of them by its name, as `[a summit][Summit]`, and nothing else that isn't there.

Of a theorem that says which crates it follows, definitions of other crates aren't in the list: they are in
docs/HEADLINE.md, or in docs/DEFINITIONS.md.

With --check nothing is written. The status is 1 where the list isn't the one that would be written, where the text
links too little or what isn't in it, or where the page has more lines than a reader can be asked to read. It is 2
where the definitions or the page can't be read."""

import argparse
import re
import sys
from dataclasses import dataclass
from pathlib import Path

sys.path.insert(0, str(Path(__file__).resolve().parents[1]))

from gate.headline import HeadlineError, definitions_of  # noqa: E402

PAGE = "docs/THEOREM.md"
MOST_LINES = 120
BEGIN = "<!-- tools/gate/theorem.py writes the list below: each definition that the theorems stand on -->"
LINKED = re.compile(r"\[[^\]]+\]\[(\w+)\]")


@dataclass
class Theorem:
    """What a theorem states, and what the names of the files begin with that it follows; none means all."""

    roots: tuple
    followed: tuple = ("",)


THEOREMS = (
    Theorem(("hw_page.Page.PageSafety", "hw_page.Page.PageOneChain")),
    Theorem(("hw_theorem.Logs.AreConflictingLogs",), ("hw_theorem.",)),
    Theorem(("hw_agreement.Lives.NoInnocentIsNamed", "hw_agreement.Lives.HostsAgree"), ("hw_agreement.",)),
)


def listed(found, theorem):
    """The definitions that a theorem stands on, as far as it follows them."""
    met = set()

    def visit(full):
        if full in met or full not in found.by_name or not full.startswith(theorem.followed):
            return
        met.add(full)
        for name in found.below(full):
            visit(name)

    for root in theorem.roots:
        if root not in found.by_name:
            raise HeadlineError(f"there is no definition {root}")
        visit(root)
    return met


def list_of(found, theorems):
    """All that the theorems stand on, by the name that the page has for each."""
    named = {}
    for full in sorted({full for theorem in theorems for full in listed(found, theorem)}):
        name = found.by_name[full].name
        if name in named:
            raise HeadlineError(f"two definitions have the name {name}: {named[name]} and {full}")
        named[name] = full
    return named


def lines_of(found, named):
    """The list as it stands at the end of the page, by files and lines."""
    places = sorted((found.by_name[full].path, found.by_name[full].line, name) for name, full in named.items())
    return [f"[{name}]: ../{path}#L{line}" for path, line, name in places]


def text_of(page):
    """The part of the page above the list."""
    text, begin, _ = page.read_text(encoding="utf-8").partition(BEGIN)
    if not begin:
        raise HeadlineError(f"{PAGE} has no line {BEGIN}")
    return text


def faults_of(text, named, whole):
    """What is wrong with the page, a line each."""
    linked = set(LINKED.findall(text))
    for name in sorted(set(named) - linked):
        yield f"{PAGE} links {name} nowhere, and a theorem stands on it"
    for name in sorted(linked - set(named)):
        yield f"{PAGE} links {name}, and no theorem stands on it"
    if len(whole.splitlines()) > MOST_LINES:
        yield f"{PAGE} has {len(whole.splitlines())} lines, more than {MOST_LINES}"


def main(words=None):
    parser = argparse.ArgumentParser(description=__doc__.splitlines()[0])
    parser.add_argument("--check", action="store_true", help="write nothing, and say whether the page is right")
    parser.add_argument("root", nargs="?", default=str(Path(__file__).resolve().parents[2]))
    asked = parser.parse_args(words)
    root = Path(asked.root)
    page = root / PAGE
    try:
        found = definitions_of(root)
        named = list_of(found, THEOREMS)
        text = text_of(page)
        whole = "\n".join([text + BEGIN, *lines_of(found, named)]) + "\n"
        old = page.read_text(encoding="utf-8")
    except (HeadlineError, OSError) as fault:
        print(f"theorem: {fault}", file=sys.stderr)
        return 2
    said = list(faults_of(text, named, whole))
    if not asked.check:
        page.write_text(whole, encoding="utf-8")
    elif old != whole:
        said.append(f"the list of {PAGE} isn't what the definitions say: run tools/gate/theorem.py")
    print(f"theorem: {len(named)} definitions, {sum(found.by_name[full].size() for full in named.values())} lines")
    for row in said:
        print(row)
    return 1 if said else 0


if __name__ == "__main__":
    sys.exit(main())
