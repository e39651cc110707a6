#!/usr/bin/env python3
"""Writes docs/HEADLINE.md, or holds it against the definitions: headline.py [--check] [ROOT]

The page lists the definitions that two clauses of `highway` stand on: what `replay`, `explain` and `audit` write of
logs. It is made from the files of definitions, `crates/*/specs/**/*.antt`: a definition uses each other one that its
text names.

- ROOTS are what the clauses cite.
- INSTEAD names what is worked out, the law over it, and the definitions that a reader believes in its place.
- PARTS are the parts of the page, each with the files whose definitions it has.

With --check nothing is written; the status is 1 where the page isn't the one that would be, or where it has more
definitions or lines than a reader can be asked to believe. It is 2 where the definitions can't be read."""

import argparse
import re
import sys
from dataclasses import dataclass, field
from pathlib import Path

PAGE = "docs/HEADLINE.md"
MOST_DEFINITIONS, MOST_LINES, MOST_OF_PROTOCOL = 300, 900, 650
WIDTH = 120

# What the clauses `reports` and `reported` cite.
ROOTS = (
    "hw_commands.Run.IsDone",
    "hw_theorem.Reports.HoldBytes",
    "hw_theorem.Reports.CanBeReported",
    "hw_theorem.Reports.SaysOfLogs",
)


@dataclass
class Instead:
    """A definition that is worked out, the call whose law says what it is, and what a reader believes in its place."""

    law: str
    crate: str
    believed: tuple
    words: str = ""


INSTEAD = {
    "hw_types.Votes.fork_over": Instead(
        "lawful_choice",
        "hw_page",
        ("hw_page.Choice.ChoosesByWalk",),
        "over what is below a panorama in a lawful graph, as what a journal settles is",
    ),
    "hw_types.Rounds.first_above": Instead("a_leader_is_found", "hw_theorem", ("hw_theorem.Drawn.IsFirstAbove",)),
    "hw_types.Same.unit_eq": Instead("equal_values_are_told", "hw_theorem", (), "the two units are equal"),
    "hw_types.Settled.need_eq": Instead("equal_values_are_told", "hw_theorem", (), "the two needs are equal"),
}


@dataclass
class Part:
    """A part of the page: its heading, and what the names of its files begin with; the first has all others."""

    title: str
    files: tuple = ()


PARTS = (
    Part("The protocol: graph, rules, answers, choice, summits, decisions"),
    Part(
        "Bytes: units, configurations and logs",
        ("hw_types.Spelling", "hw_types.Limits", "hw_types.Real", "hw_codec.", "hw_log."),
    ),
    Part(
        "Logs, and what is printed of them",
        (
            "hw_text.",
            "hw_explain.",
            "hw_audit.",
            "hw_commands.",
            "hw_replay.",
            "hw_theorem.Counts",
            "hw_theorem.Logs",
            "hw_theorem.Reports",
        ),
    ),
)

# What is said of definitions whose own comment needs the head of their part of the file.
SAID = {
    "hw_types.Journal.received_of": "what a journal says: its units, who has evidence against them, and its endorsements",
    "hw_types.Rules.state_rule": "the first rule that a unit breaks over the units below it",
}

HEAD = """# What `replay`, `explain` and `audit` write of logs: the definitions

`tools/gate/headline.py` makes this page from the definitions, and the gate checks that it is up to date. Two clauses of
`highway` (hw_program) say what these three commands write with status 0 or 3. Who believes these {count} definitions
({lines} lines without comments) knows what the two promise:

- `reports`: with status 0 or 3, what was written is `SaysOfLogs` of the words and of the bytes of the files;
- `reported`: where the words name logs that can be replayed, and for `audit` compared (`CanBeReported`), the status is
  0 or 3 if no read and no write failed, or 7 (out of memory).

**The premise.** Both hold of an outside that tells what its files hold and what its output took (`tells`), and
`reports` where files hold bytes (`HoldBytes`). The files of the built program tell nothing, so of them the clauses say
nothing by themselves. [PROVED.md](PROVED.md#the-program) has the argument why they hold there too.

Not listed: whom a conflict spares (clause `innocent`). The other statuses, whose texts are worked out (clauses `said`
and `line`, by `run_of`). Failing reads and writes, memory that runs out, and consumers. The other commands. And {types}
types of the code, as `Digest`, and {words} words of the toolchain's library, as `filter`.
[DEFINITIONS.md](DEFINITIONS.md) explains the protocol's part with examples, and how to read a definition.
[THEOREM.md](THEOREM.md) has the theorems in words.

{parts}
In each part a definition uses those above it, or of parts above; what it takes from a part below is named there.

Some definitions are worked out, and a law says what they are. In their place this page has the words of the law.

| Worked out | The law | Believed in its place |
|---|---|---|
"""

NAME = re.compile(r"^(?:abbrev |unfoldable )?pub (?:record |data )?([^\s:({]+)")
FROM = re.compile(r"^use Rattle\.([\w.]+?)\.\{(.*)\}\s*$")
WHOLE = re.compile(r"^use Rattle\.([\w.]+) as (\w+)")
TOKEN = re.compile(r"\.?[^\s(){}\[\];,≡→←×⊎↦|λ.∷:]+")
MAKER = re.compile(r"^  ([A-Z]\w*) :", re.M)


class HeadlineError(Exception):
    """What is wrong with the definitions, so that no page can be made."""


@dataclass
class Definition:
    """A definition of a file: where it stands, what is said of it, and its text."""

    name: str
    module: str
    path: str
    line: int
    comment: str
    text: str

    def size(self):
        """How many lines a reader believes: no comments, and no empty ones."""
        return sum(1 for row in self.text.splitlines() if row.strip() and not row.strip().startswith("--"))


@dataclass
class Definitions:
    """All definitions by their full names, the names that each file takes from others, and who makes a value of which."""

    by_name: dict = field(default_factory=dict)
    taken: dict = field(default_factory=dict)
    makers: dict = field(default_factory=dict)

    def named(self, module, word):
        """The full name of what a word means in a file, or None where it is a word of the file's own."""
        full = f"{module}.{word}"
        if full in self.by_name or full in self.makers:
            return self.makers.get(full, full)
        taken = self.taken[module].get(word)
        if taken:
            return self.makers.get(shortened(taken), shortened(taken))
        return None

    def below(self, full):
        """The full names that a definition's text names, in the order in which they stand, itself left out."""
        if full in INSTEAD:
            return list(INSTEAD[full].believed)
        own = self.by_name[full]
        found = []
        for token in TOKEN.findall(own.text):
            name = None if token.startswith(".") else self.named(own.module, token)
            if name and name != full and name not in found:
                found.append(name)
        return found


def shortened(path):
    """`hw_types.specs.Graph.Node` is the definition hw_types.Graph.Node; what isn't in specs/ keeps its path."""
    parts = path.split(".")
    if len(parts) > 2 and parts[1] == "specs" and parts[2] != "declared":
        return ".".join([parts[0], *parts[2:]])
    return path


def names_taken(rows):
    """What a file's `use` lines take: the name that it has here, and the path that it has."""
    found = {}
    for row in rows:
        said, whole = FROM.match(row), WHOLE.match(row)
        if said:
            for item in said[2].split(","):
                name, _, other = item.strip().partition(" as ")
                found[(other or name).strip("◌")] = f"{said[1]}.{name.strip('◌')}"
        elif whole:
            found[whole[2]] = whole[1]
    return found


def comment_above(rows, at):
    """The comment right above a line; where there is none, that of the group which the line belongs to."""
    is_own = at > 0 and rows[at - 1].startswith(("--", "infixl"))
    while at > 0 and not (is_own and not rows[at - 1].startswith(("--", "infixl"))):
        at -= 1
        is_own = is_own or rows[at].startswith("--")
    found = []
    while at < len(rows) and rows[at].startswith(("--", "infixl")):
        if rows[at].startswith("--") and not rows[at].startswith("-- ----"):
            found.append(rows[at][2:].strip())
        at += 1
    return " ".join(found)


def read_file(found, root, path):
    """Notes the definitions of a file."""
    place = path.relative_to(root)
    module = ".".join([place.parts[1], *place.parts[3:-1], place.stem])
    rows = path.read_text(encoding="utf-8").splitlines()
    found.taken[module] = names_taken(rows)
    starts = [at for at, row in enumerate(rows) if NAME.match(row) and not row.startswith("pub mod ")]
    for at, after in zip(starts, [*starts[1:], len(rows)]):
        end = after
        while end > at + 1 and (not rows[end - 1].strip() or rows[end - 1].startswith(("--", "infixl"))):
            end -= 1
        name, text = NAME.match(rows[at])[1].strip("◌"), "\n".join(rows[at:end])
        found.by_name[f"{module}.{name}"] = Definition(name, module, str(place), at + 1, comment_above(rows, at), text)
        if re.match(r"pub data ", rows[at]):
            found.makers.update({f"{module}.{maker}": f"{module}.{name}" for maker in MAKER.findall(text)})


def definitions_of(root):
    """All definitions of a repository."""
    found = Definitions()
    for path in sorted(root.glob("crates/*/specs/**/*.antt")):
        read_file(found, root, path)
    return found


def closure(found, roots):
    """What the roots stand on, themselves included, each behind all that it names; the other names that are met; and
    what is met that is worked out."""
    ordered, others, begun, met = [], set(), set(), []

    def visit(full):
        if full in begun:
            return
        begun.add(full)
        if full not in found.by_name:
            others.add(full)
            return
        for name in found.below(full):
            visit(name)
        (met if full in INSTEAD else ordered).append(full)

    for root in roots:
        if root not in found.by_name:
            raise HeadlineError(f"there is no definition {root}")
        visit(root)
    return ordered, others, met


def believed_below(found, full):
    """The definitions that a definition uses, those that are worked out replaced by what is believed."""
    for name in found.below(full):
        if name in INSTEAD:
            yield from INSTEAD[name].believed
        elif name in found.by_name:
            yield name


def by_files(found, ordered):
    """The definitions by file: each file after those that it uses, and its definitions in their order there."""
    files, done, begun = {}, [], set()
    for full in ordered:
        files.setdefault(found.by_name[full].module, []).append(full)

    def visit(module):
        if module in begun or module not in files:
            return
        begun.add(module)
        for full in files[module]:
            for name in believed_below(found, full):
                visit(found.by_name[name].module)
        done.append((module, sorted(files[module], key=lambda full: found.by_name[full].line)))

    for module in files:
        visit(module)
    return done


def types_and_words(others):
    """How many types of the code there are among these names, and how many words of the toolchain's library."""
    types, words = set(), set()
    for name in others:
        parts = name.split(".")
        if "declared" in parts:
            at = parts.index("declared")
            types.add(".".join([parts[0], *parts[at + 1 : at + 3]]))
        else:
            words.add(name)
    return len(types), len(words)


def in_plain_words(full, it):
    """What is said of a definition, as a cell of a table."""
    return SAID.get(full, it.comment).rstrip(".").replace("|", "\\|")


def part_of(module):
    """The number of the part that a file belongs to."""
    return next((at for at, part in enumerate(PARTS) if module.startswith(part.files)), 0)


def in_parts(found, ordered):
    """For each part its definitions by file, and what they take from parts below."""
    parts = [[full for full in ordered if part_of(found.by_name[full].module) == at] for at in range(len(PARTS))]
    for at, names in enumerate(parts):
        later = {
            below
            for full in names
            for below in believed_below(found, full)
            if part_of(found.by_name[below].module) > at
        }
        yield PARTS[at], by_files(found, names), sorted(later)


def lines_of(found, names):
    """How many lines these definitions have."""
    return sum(found.by_name[full].size() for full in names)


def sizes_of(found, ordered):
    """The table of the parts, and how many lines the first of them has."""
    rows, lines = ["| Part | Definitions | Lines |\n|---|---|---|\n"], []
    for at, part in enumerate(PARTS):
        names = [full for full in ordered if part_of(found.by_name[full].module) == at]
        lines.append(lines_of(found, names))
        rows.append(f"| {at + 1}. {part.title} | {len(names)} | {lines[-1]} |\n")
    return "".join(rows), lines[0]


def rows_of_instead(found, met):
    """The rows on what is worked out, of the definitions that were met."""
    for full in met:
        it = INSTEAD[full]
        named = ", ".join([*(f"`{name.split('.')[-1]}`" for name in it.believed), *([it.words] if it.words else [])])
        yield f"| `{full.split('.')[-1]}` | `{it.law}` ({it.crate}) | {named} |\n"


def page_of(found):
    """The page, how many definitions and lines it asks a reader to believe, and how many of these are the protocol's."""
    ordered, others, met = closure(found, ROOTS)
    types, words = types_and_words(others)
    lines = lines_of(found, ordered)
    table, protocol = sizes_of(found, ordered)
    texts = [HEAD.format(count=len(ordered), lines=lines, types=types, words=words, parts=table)]
    texts.extend(rows_of_instead(found, met))
    for at, (part, files, later) in enumerate(in_parts(found, ordered)):
        texts.append(f"\n## {at + 1}. {part.title}\n")
        if later:
            texts.append("\nFrom parts below: " + ", ".join(f"`{full.split('.')[-1]}`" for full in later) + ".\n")
        for _, names in files:
            texts.append(rows_of_file(found, names))
    return "".join(texts), len(ordered), lines, protocol


def rows_of_file(found, names):
    """The definitions of one file, as a table under its name."""
    path = found.by_name[names[0]].path
    rows = [
        f"\n### [{path.removeprefix('crates/')}](../{path})\n\n| Line | Definition | In plain words |\n|---|---|---|\n"
    ]
    for full in names:
        it = found.by_name[full]
        rows.append(f"| {it.line} | `{it.name}` | {in_plain_words(full, it)} |\n")
    return "".join(rows)


def main(words=None):
    parser = argparse.ArgumentParser(description=__doc__.splitlines()[0])
    parser.add_argument("--check", action="store_true", help="write nothing, and say whether the page is right")
    parser.add_argument("root", nargs="?", default=str(Path(__file__).resolve().parents[2]))
    asked = parser.parse_args(words)
    root = Path(asked.root)
    try:
        text, count, lines, protocol = page_of(definitions_of(root))
    except (HeadlineError, OSError) as fault:
        print(f"headline: {fault}", file=sys.stderr)
        return 2
    print(f"headline: {count} definitions, {lines} lines, of which {protocol} are the protocol's")
    page = root / PAGE
    if not asked.check:
        page.write_text(text, encoding="utf-8")
    elif not page.is_file() or page.read_text(encoding="utf-8") != text:
        print(f"{PAGE} isn't what the definitions say: run tools/gate/headline.py")
        return 1
    if count > MOST_DEFINITIONS or lines > MOST_LINES or protocol > MOST_OF_PROTOCOL:
        print(
            f"headline: more than {MOST_DEFINITIONS} definitions, {MOST_LINES} lines or {MOST_OF_PROTOCOL} of the protocol"
        )
        return 1
    return 0


if __name__ == "__main__":
    sys.exit(main())
