"""`page LOG OUT.html`: one file for a browser, that needs no network: the picture, each unit in full, and the journal
entry by entry. `page LEFT RIGHT OUT.html` shows two logs side by side, with the program's audit of them.

It proves nothing: every judgement in it is the proved program's (lens/seen.py). What it draws with is tools/view, as the
page of the core does; this writes the data for it.
"""
import json
import pathlib
from dataclasses import dataclass, field
from html import escape

from lens.draw import UNITS_MOST, check_new, write_new
from lens.graph import SETTLED, Reading
from lens.layout import Rounds, block_labels
from lens.log import ABSENT, FAULTY, Endorsement, Evidence, InputError, SignedUnit, value_text
from lens.program import log_file, need_program
from lens.seen import DIFFER, look
from lens.svg import committee_text
from view.parts import VIEW, filled, policy, read, script_of, style_of

HERE = pathlib.Path(__file__).resolve().parent
CHECKS_MOST = 24
VALUE_LETTERS = 400
LEAD = 12
FOOT = (
    "This page proves nothing. What is final, when, by which committee, and who is faulty is what the proved program says "
    "of the log (explain, replay, audit). Lanes, citations, votes and heights are this tool's own reading."
)


@dataclass(slots=True)
class Panel:
    """One of the page's logs: what was seen of it, and the numbers by which the data names its units. `window` are the
    first and the last round that were asked for, or None for all.
    """

    seen: object
    labels: dict
    rounds: Rounds
    window: tuple | None
    numbers: dict = field(default_factory=dict)
    units: list = field(default_factory=list)

    @property
    def name(self):
        return self.seen.name.rsplit("/", 1)[-1]

    def is_shown(self, unit):
        """Whether the unit is of a round that was asked for."""
        return self.window is None or self.window[0] <= self.rounds.number(unit.time) <= self.window[1]


# ---- the data of a log


def gather_units(panel):
    """Numbers each unit that has an entry of its own: that with which it was accepted, else its first one."""
    nodes = panel.seen.reading.nodes
    for entry, outcome in zip(panel.seen.log.entries, panel.seen.reading.outcomes):
        if not isinstance(entry.vertex, SignedUnit):
            continue
        unit = entry.vertex.unit
        if unit.digest not in panel.numbers and (unit.digest not in nodes or nodes[unit.digest].entry is entry):
            panel.numbers[unit.digest] = len(panel.units)
            panel.units.append((unit, entry, outcome))


def observation(panel, seen):
    """What the page's data says of an observation: -1, -2, a unit's number, or a digest that the log hasn't got."""
    if seen in (ABSENT, FAULTY):
        return -1 if seen == ABSENT else -2
    return panel.numbers.get(seen, seen.hex())


def became_words(node, entry, outcome):
    """What became of a unit, at once and later."""
    if node is not None and node.since > entry.place:
        return f"{outcome}, {node.state} with entry {node.since}"
    return str(outcome)


def unit_data(panel, unit, entry, outcome, journal):
    """What the page knows of a unit. Numbers that may be long are texts."""
    node = panel.seen.reading.nodes.get(unit.digest)
    is_settled = node is not None and node.state == SETTLED
    vote = node.vote.unit.digest if is_settled and node.vote is not None else None
    return {
        "digest": unit.digest.hex(),
        "creator": unit.creator,
        "seq": str(unit.number),
        "time": str(unit.time),
        "round": str(unit.round),
        "exponent": unit.exponent,
        "entry": entry.place,
        "journal": journal.get(entry.place),
        "became": became_words(node, entry, outcome),
        "state": node.state if node is not None else "refused",
        "value": None if unit.value is None else value_text(unit.value)[:VALUE_LETTERS],
        "vote": panel.numbers[vote] if vote else None,
        "height": node.height if is_settled and unit.is_block else None,
        "panorama": [observation(panel, seen) for seen in unit.panorama],
        "endorsed": [digest.hex() for digest in unit.endorsed],
        "judged": judged(panel, unit),
        # A refused unit is told of entry by entry, and has no place in the graph.
        "isHidden": node is None or not panel.is_shown(unit),
    }


def judged(panel, unit):
    """What the program says of a unit, in words."""
    seen = panel.seen
    said = [
        f"final at height {final.height}: level {final.level}, quorum {final.quorum}, since entry {seen.entry_of(final)}"
        for final in seen.finals
        if final.digest == unit.digest
    ]
    if unit.creator in seen.faulty and len(seen.reading.units_at(unit.creator, unit.number)) > 1:
        said.append(f"validator {unit.creator} is faulty: another unit of it has this number")
    return said + ([seen.culprits[unit.digest]] if unit.digest in seen.culprits else [])


def start_tags(panel):
    """Where each member of a committee has its starts, as tags by unit. A member of a committee isn't faulty then."""
    tags = {}
    for final in panel.seen.finals:
        for member, starts in final.committee.items():
            for level, number in enumerate(starts):
                for node in panel.seen.reading.units_at(member, number)[:1]:
                    tags.setdefault((node.unit.digest, final.digest), []).append(level)
    by_unit = {}
    for (digest, block), levels in tags.items():
        by_unit.setdefault(digest, []).append({"kind": "start", "blocks": [block.hex()], "levels": levels})
    return by_unit


def units_data(panel):
    """What the page knows of all units."""
    journal = {entry.place: place for place, entry in enumerate(panel.seen.reading.journal)}
    starts, told = start_tags(panel), []
    for unit, entry, outcome in panel.units:
        since = panel.seen.reading.endorsed_since.get(unit.digest)
        more = {"tags": starts.get(unit.digest, []), "noted": [f"endorsed since entry {since.place}"] if since else []}
        told.append(unit_data(panel, unit, entry, outcome, journal) | more)
    return told


def entry_words(entry):
    """An entry in few words."""
    vertex = entry.vertex
    if isinstance(vertex, Endorsement):
        return f"endorsement of {vertex.unit.hex()[:8]} by {vertex.endorser}"
    if isinstance(vertex, Evidence):
        left, right = vertex.left.unit, vertex.right.unit
        return f"evidence against {left.creator}: {left.digest.hex()[:8]} and {right.digest.hex()[:8]}"
    unit = vertex.unit
    return f"{'block' if unit.is_block else 'unit'} {unit.digest.hex()[:8]} by {unit.creator}, number {unit.number}"


class Walk:
    """The journal entry by entry: the state by the own reading, and what became final when, as the program says."""

    def __init__(self, panel):
        self.panel, self.seen = panel, panel.seen
        self.reading = Reading(self.seen.reading.config)
        self.news, self.settled = {}, {}
        for final in self.seen.finals:
            self.news.setdefault(self.seen.entry_of(final), []).append(final.digest.hex())
        for node in self.seen.reading.nodes.values():
            if node.state == SETTLED:
                self.settled.setdefault(node.since, []).append(node.unit.digest.hex())

    def step(self, entry):
        """Delivers an entry, and answers what the page tells of it."""
        outcome, reading = self.reading.take(entry), self.reading
        newly = [who for who, since in reading.faulty_since.items() if since is entry and who in self.seen.faulty]
        fork = reading.fork()
        unit = entry.vertex.unit.digest if isinstance(entry.vertex, SignedUnit) else None
        return {
            "what": entry_words(entry),
            "became": str(outcome),
            "unit": unit.hex() if unit else None,
            "settles": self.settled.get(entry.place, []),
            "counts": [len(reading.order), len(reading.parked), len(reading.dropped)],
            "finals": self.news.get(entry.place, []),
            "faulty": newly,
            "fork": fork.unit.digest.hex() if fork else None,
        }

    def check(self, program, place):
        """Compares the walk at a place with what the program says of the log up to there. Answers what differs."""
        said = program.replay(log_file(self.seen.name, self.seen.log, place)).lines
        differ = said != self.reading.totals()
        return [f"{DIFFER} after entry {place} the program says: {'; '.join(said)}"] if differ else []


def walk_data(panel, program):
    """What the page tells of each entry. At some places the program is asked about the log up to there."""
    walk, entries = Walk(panel), panel.seen.log.entries
    every = max(1, -(-len(entries) // CHECKS_MOST))
    told = []
    for entry in entries:
        told.append(walk.step(entry))
        if entry.place % every == 0:
            panel.seen.notes += walk.check(program, entry.place)
    return told


def finals_data(panel):
    """The final blocks, as the program explains them."""
    return [
        {
            "block": final.digest.hex(),
            "height": final.height,
            "level": final.level,
            "quorum": str(final.quorum),
            "at": final.at,
            "committee": committee_text(final.committee),
        }
        for final in panel.seen.finals
    ]


def head_lines(panel):
    """What the log is, in few lines."""
    config, report = panel.seen.reading.config, panel.seen.report
    counts = " · ".join(f"{name} {count}" for name, count in report.counts.items() if count or name == "units")
    exceeded = "" if report.exceeded is None else f" · faulty weight {report.exceeded} exceeds the threshold"
    weights = f"total weight {sum(config.weights)} · threshold {config.threshold} · levels {config.levels}"
    return [f"{len(panel.seen.log.entries)} entries · {counts}", weights + exceeded]


def marked_units(seen):
    """The units that an audit is about, by what they are in it."""
    marked = {digest.hex(): "culprit" for digest in seen.culprits}
    for digest in seen.conflict:
        marked[digest.hex()] = f"{marked.get(digest.hex(), '')} conflict".strip()
    return marked


def first_place(panel, units):
    """The place by time from which the page opens: a little before the first unit that an audit is about."""
    marked = [*panel.seen.culprits, *panel.seen.conflict]
    times = [int(units[panel.numbers[digest]]["time"]) for digest in marked if digest in panel.numbers]
    earlier = sum(int(unit["time"]) < min(times) for unit in units if not unit["isHidden"]) if times else 0
    return max(0, earlier - LEAD)


def panel_data(panel, program):
    """All that the page's script knows of a log."""
    gather_units(panel)
    seen, units = panel.seen, units_data(panel)
    told = {
        "name": panel.name,
        "weights": [str(weight) for weight in seen.reading.config.weights],
        "exponent": seen.reading.config.least,
        "faulty": seen.faulty,
        "head": head_lines(panel),
        "marked": marked_units(seen),
        "first": first_place(panel, units),
        "hasStarts": any(final.committee for final in seen.finals),
        "finals": finals_data(panel),
        "units": units,
        "walk": walk_data(panel, program),
    }
    return told | {"notes": seen.notes}


# ---- the page's parts


def digest_link(digest, label=None):
    said = f"{label} ({digest.hex()[:8]})" if label else digest.hex()[:8]
    return f'<a class="unit" href="#unit={digest.hex()}" data-digest="{digest.hex()}">{escape(said)}</a>'


def story(verdict, labels, names):
    """What the program's audit says of two logs, as lines of HTML."""
    if verdict.agree is not None:
        return [f"The program's audit: the two agree; the shorter chain has {verdict.agree} final blocks."]
    left, right = (digest_link(digest, "block " + labels[digest].text) for digest in (verdict.left, verdict.right))
    lines = [
        f"The program's audit: a conflict at height {verdict.height}. "
        f"{escape(names[0])} has {left}, {escape(names[1])} has {right}."
    ]
    for who, one, other in verdict.culprits:
        pair = f"{digest_link(one)} and {digest_link(other)}"
        lines.append(f"Culprit: validator {who}, by its two units {pair} of one number.")
    return lines + [f"The culprits weigh {verdict.weight}, above the threshold of {verdict.threshold}."]


def header(panels, verdict):
    """The page's head: its title, and the audit."""
    lines = [f"<h1>{escape(' and '.join(panel.name for panel in panels))}</h1>"]
    if verdict is not None:
        told = story(verdict, panels[0].labels, [panel.name for panel in panels])
        lines += [f'<p class="{"quiet" if verdict.agree is not None else "alarm"}">{told[0]}</p>']
        lines += [f"<p>{line}</p>" for line in told[1:]]
    return "".join(lines)


def page(panels, program, verdict):
    """The whole page. Data is written so that it can't end the script that holds it."""
    data = json.dumps([panel_data(panel, program) for panel in panels], separators=(",", ":"), ensure_ascii=True)
    style, script = style_of(), script_of(*VIEW, HERE / "open.js")
    parts = {
        "POLICY": policy(style, script),
        "TITLE": escape(" and ".join(panel.name for panel in panels)),
        "STYLE": style,
        "HEADER": header(panels, verdict),
        "FOOT": escape(FOOT),
        "DATA": data.replace("<", "\\u003c"),
        "SCRIPT": script,
    }
    return filled(read(HERE / "page.html"), parts)


# ---- the command


def blame(verdict):
    """The units that an audit's conflict is about, and what is said of each."""
    marked = {}
    for who, one, other in verdict.culprits:
        for digest in (one, other):
            marked[digest] = f"shows that validator {who} is a culprit"
    return marked


def make_panels(paths, program, arguments):
    """The logs as panels, and the program's audit where there are two."""
    seens = [look(path, program, arguments) for path in paths]
    verdict = None
    if len(seens) == 2:
        verdict = program.audit(*(log_file(seen.name, seen.log) for seen in seens))
        for seen in seens:
            seen.culprits = blame(verdict)
            seen.conflict = () if verdict.agree is not None else (verdict.left, verdict.right)
    labels, rounds = block_labels(*(seen.reading for seen in seens)), Rounds(*seens)
    asked = arguments.rounds if arguments.rounds != (None, None) else None
    windows = [rounds.window(seen.name, asked) if asked else None for seen in seens]
    return [Panel(seen, labels, rounds, window) for seen, window in zip(seens, windows)], verdict


def count_shown(panel):
    """How many settled units the page shows. More than a browser likes to hold are refused."""
    shown = sum(panel.is_shown(node.unit) for node in panel.seen.reading.order)
    if shown > UNITS_MOST:
        said = f"{shown} units are more than a page's {UNITS_MOST}: choose rounds with --rounds A..B"
        raise InputError(panel.seen.name, said)
    return shown


def run(arguments):
    """Makes the page, and says where it is."""
    check_new(arguments.out, arguments.force)
    if len(arguments.logs) > 2:
        raise InputError(arguments.logs[2], "a page shows one log, or two side by side")
    program = need_program(arguments.program)
    panels, verdict = make_panels(arguments.logs, program, arguments)
    shown = sum(count_shown(panel) for panel in panels)
    write_new(arguments.out, page(panels, program, verdict), arguments.force)
    notes = [note for panel in panels for note in panel.seen.notes]
    print("".join(note + "\n" for note in notes) + f"a page of {shown} units: {arguments.out}")
    return 1 if any(note.startswith(DIFFER) for note in notes) else 0
