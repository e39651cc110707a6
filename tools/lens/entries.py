"""`lens.py entries LOG`: each entry of a log, and what became of it; of a certificate each vertex.

What became of an entry is an own reading, whose totals are compared with the program's `replay`. Which block is final
since which entry is the program's word. A certificate has no verdicts, and is read as if each signature were good.
"""
from lens.certificate import is_certificate, read_certificate
from lens.graph import DROPPED, PARKED, SETTLED, Reading, rule_text
from lens.log import Endorsement, Evidence, Log, short
from lens.show import Look, config_lines, counted

HEAD = ("place", "byte", "kind", "by", "number", "round", "time", "digest", "verdict", "became")
LEFT_BOUND = ("kind", "digest", "verdict", "became")


def fate(look, entry, outcome):
    """What became of an entry at once, and later where it was parked."""
    if outcome.word != PARKED:
        return str(outcome)
    node = look.reading.nodes[entry.vertex.unit.digest]
    if node.state == SETTLED:
        return f"{outcome}, settled at {node.since}"
    if node.state == DROPPED:
        return f"{outcome}, dropped at {node.since} by {rule_text(node.rule)}"
    return f"{outcome}, and waits"


def middle(vertex):
    """The words of a vertex from its kind to its digest."""
    if isinstance(vertex, Endorsement):
        return "endorsement", vertex.endorser, "", "", "", short(vertex.unit)
    if isinstance(vertex, Evidence):
        left, right = vertex.left.unit, vertex.right.unit
        return "evidence", left.creator, left.number, "", "", f"{short(left.digest)} {short(right.digest)}"
    unit = vertex.unit
    return "block" if unit.is_block else "unit", unit.creator, unit.number, unit.round, unit.time, short(unit.digest)


def row(look, entry, outcome, finals):
    """The words of an entry, one for each column."""
    became = fate(look, entry, outcome) + "".join(f"; final {final.height} {short(final.digest)}" for final in finals)
    return entry.place, entry.offset, *middle(entry.vertex), "good" if entry.verdict else "bad", became


def table(rows):
    """Rows as lines with columns as wide as they need; numbers to the right."""
    words = [[str(word) for word in each] for each in [HEAD, *rows]]
    widths = [max(map(len, column)) for column in zip(*words)]
    for each in words:
        cells = [
            word.ljust(width) if name in LEFT_BOUND else word.rjust(width)
            for name, word, width in zip(HEAD, each, widths)
        ]
        yield "  ".join(cells).rstrip()


def head_lines(look):
    """What the log is, and its configuration."""
    log, entries = look.log, counted(len(look.log.entries), "entry", "entries")
    return [f"{look.path}: a log of version {log.version}, {entries} in {log.size} bytes", *config_lines(log.config)]


def rows_of(look, report, span):
    """The rows of the entries whose places are in the span."""
    finals, (low, high) = {}, span
    for final in report.finals if report else ():
        finals.setdefault(look.entry_of(final).place, []).append(final)
    for entry, outcome in zip(look.log.entries, look.reading.outcomes):
        if (low or 0) <= entry.place and (high is None or entry.place <= high):
            yield row(look, entry, outcome, finals.get(entry.place, ()))


class Opened:
    """A certificate in the place of a log: its vertices as entries, and the own reading of them."""

    def __init__(self, path):
        self.path, self.certificate = path, read_certificate(path)
        config, entries, size = self.certificate.config, self.certificate.entries, self.certificate.size
        self.log = Log(config, 1, entries, size)
        self.reading = None if self.certificate.fault else Reading(config)
        for entry in entries if self.reading else ():
            self.reading.take(entry)

    def lines(self, span):
        vertices = counted(len(self.log.entries), "vertex", "vertices")
        yield f"{self.path}: a certificate, {vertices} in {self.log.size} bytes"
        yield f"block {self.certificate.block.hex()}"
        yield from config_lines(self.log.config)
        if self.certificate.fault:
            yield f"The configuration breaks a limit: {self.certificate.fault}."
            return
        yield from table(rows_of(self, None, span))
        yield "It has no verdicts: each signature is shown as good, and `highway check` judges them by the keys."


def run(arguments):
    """Shows the entries, then the totals; 1 where the program's totals are others."""
    if is_certificate(arguments.log):
        print("\n".join(Opened(arguments.log).lines(arguments.entries)))
        return 0
    look = Look(arguments.log, arguments)
    report, differing = look.compare()
    for line in [*head_lines(look), *table(rows_of(look, report, arguments.entries)), *look.reading.totals()]:
        print(line)
    if look.log.torn is not None:
        print(f"torn at {look.log.torn}: the last entry is cut")
    if differing:
        print("the own reading differs from the program:", *differing, sep="\n")
    look.refuse_fault()
    return 1 if differing else 0
