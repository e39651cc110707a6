"""What the text commands of the lens share: a log with what is known of it, a progress line, and a unit in full."""
import sys
import time

from lens.graph import DROPPED, PARKED, SETTLED, Reading, rule_text
from lens.log import ABSENT, FAULTY, Evidence, InputError, SignedUnit, is_signed_unit, read_as_far, short, value_text
from lens.program import ProgramError, before_limit, differences, has_program, log_file, need_program

MOST_LISTED = 20
MOST_NUMBERS = 16


class Progress:
    """A line on standard error that says how far a long reading is; only on a terminal, and after half a second."""

    def __init__(self, arguments, what):
        self.what, self.shown = what, False
        self.wanted = sys.stderr.isatty() and not arguments.no_progress
        self.next = time.monotonic() + 0.5

    def __call__(self, done, whole):
        if self.wanted and time.monotonic() >= self.next:
            print(f"\r{self.what} {done} of {whole}", end="", file=sys.stderr, flush=True)
            self.next, self.shown = time.monotonic() + 0.2, True

    def finish(self):
        if self.shown:
            print("\r" + " " * 60 + "\r", end="", file=sys.stderr, flush=True)


class Look:
    """A log as it was read, the own reading of its journal, and the program, where there is one."""

    def __init__(self, path, arguments):
        self.path, self.arguments = path, arguments
        progress = Progress(arguments, f"{path}: read bytes")
        self.log = read_as_far(path, progress)
        progress.finish()
        self.reading = Reading(self.log.config)
        progress = Progress(arguments, f"{path}: read entries")
        for entry in self.log.entries:
            self.reading.take(entry)
            progress(entry.place, len(self.log.entries))
        progress.finish()

    @property
    def file(self):
        """The whole entries of the log, for the program."""
        return log_file(self.path, self.log)

    def file_before_limit(self):
        """The entries before the one at which the program stops, if a limit is met; standard error says so."""
        if self.reading.limit:
            print(f"lens: {self.reading.limit}: the program is asked about the entries before", file=sys.stderr)
        return before_limit(self.path, self.reading, self.log.size)

    @property
    def has_program(self):
        return has_program(self.arguments.program)

    def program(self):
        """The program, or the error that there is none."""
        return need_program(self.arguments.program)

    def refuse_fault(self):
        """Raises the fault at which the reading ended, if there was one."""
        if self.log.fault is not None:
            raise self.log.fault

    def compare(self):
        """The program's report, where there is a program, and the lines in which it differs from the own reading."""
        if not self.has_program:
            print("lens: no program was found, so nothing is called final and nothing was compared", file=sys.stderr)
            return None, []
        try:
            report = self.program().replay(self.file)
        except ProgramError as error:
            if error.text is None or error.text != self.reading.limit:
                raise
            print(f"lens: the program says {error.text}, and so does the lens", file=sys.stderr)
            return None, []
        return report, differences(self.reading, report)

    def entry_of(self, final):
        """The entry since which a block is final."""
        if final.at > len(self.reading.journal):
            raise ProgramError(f"the program has {final.at} vertices in the journal of {self.path}, and the lens fewer")
        return self.reading.journal[final.at - 1]

    def node_of(self, final):
        """The unit of a final block."""
        node = self.reading.nodes.get(final.digest)
        if node is None:
            raise ProgramError(f"the program says that {short(final.digest)} is final, and the lens doesn't know it")
        return node

    def find(self, prefix):
        """The digest of the one unit whose digest begins so. Units inside evidence are searched too."""
        if not prefix or prefix.strip("0123456789abcdef") or len(prefix) > 64:
            raise InputError(prefix or "HASH", "no digest: up to 64 lower-case hexadecimal digits")
        digests = {signed.unit.digest for entry in self.log.entries for signed in units_in(entry.vertex)}
        found = sorted(digest for digest in digests if digest.hex().startswith(prefix))
        if not found:
            raise InputError(prefix, f"no unit of {self.path} has a digest that begins so")
        if len(found) > 1:
            some = listed((digest.hex()[: len(prefix) + 4] for digest in found), 4)
            raise InputError(prefix, f"{len(found)} units of {self.path} begin so: {some}")
        return found[0]

    def standing(self, digest):
        """The entries that hold this unit, alone or inside evidence, each with the signed unit there."""
        return [
            (entry, signed)
            for entry in self.log.entries
            for signed in units_in(entry.vertex)
            if signed.unit.digest == digest
        ]


# ---- words


def numbers(values):
    """Numbers with spaces between, and two dots where there are many."""
    return " ".join(map(str, values[:MOST_NUMBERS])) + (" .." if len(values) > MOST_NUMBERS else "")


def config_lines(config):
    """A configuration in few lines, the instance first."""
    leaders = "drawn" if isinstance(config.leaders, bytes) else numbers(config.leaders)
    end, total = "" if config.end is None else f", end {config.end}", sum(config.weights)
    yield f"instance {config.instance.hex()}"
    yield (
        f"{counted(len(config.weights), 'validator')} of weight {numbers(config.weights)}, together {total}; "
        f"threshold {config.threshold}, levels {config.levels}"
    )
    yield f"exponents {config.least} to {config.greatest}, leaders {leaders}{end}"


def units_in(vertex):
    """The signed units of a vertex."""
    if isinstance(vertex, SignedUnit):
        return (vertex,)
    return (vertex.left, vertex.right) if isinstance(vertex, Evidence) else ()


def listed(words, most=MOST_LISTED):
    """Words with commas between, and how many more there are; `-` where there is none."""
    words = list(words)
    more = f" and {len(words) - most} more" if len(words) > most else ""
    return (", ".join(words[:most]) or "-") + more


def counted(count, what, many=None):
    """A count and its word, as in `1 byte` and `2 bytes`."""
    return f"{count} {what if count == 1 else many or what + 's'}"


def named(unit):
    """A unit in few words: its creator, its number, and the first digits of its digest."""
    return f"{unit.creator}#{unit.number} {short(unit.digest)}"


def need_text(need):
    kind, what = need
    return f"evidence against {what}" if kind == "evidence" else f"{kind} {short(what)}"


def block_text(value):
    """A value, with its bytes where it is shown as text."""
    if value is None:
        return "none"
    said, size = value_text(value), counted(len(value), "byte")
    return f"{said} ({size})" if said.startswith("0x") else f"{said} ({size}, 0x{value.hex()})"


def parent_text(node):
    return named(node.parent.unit) if node.parent else "the root"


def state_text(node):
    """What has become of a unit by the end of the log."""
    if node is None:
        return "no unit of the journal"
    if node.state == SETTLED:
        return f"settled at entry {node.since}"
    if node.state == DROPPED:
        return f"dropped at entry {node.since}, by rule {rule_text(node.rule)}"
    return f"{PARKED}, and waits for {listed(map(need_text, node.missing), 5)}"


def vote_text(node):
    if node.unit.is_block:
        return f"itself: a block of height {node.height} on {parent_text(node)}"
    return f"{named(node.vote.unit)}, the block of height {node.vote.height}" if node.vote else "no block"


def final_text(final, weights):
    """A final block's line; with the starts of each member where the program gave them."""
    members = (
        f"{who} (weight {weights[who]}) from {','.join(map(str, starts))}"
        for who, starts in sorted(final.committee.items())
    )
    vertices = counted(final.at, "vertex", "vertices")
    committee = f"; committee {listed(members)}" if final.committee else ""
    return f"height {final.height} at level {final.level}, quorum {final.quorum}, since {vertices}{committee}"


def signed_text(signed, entry, keys):
    """Whether a unit is signed: by the keys where they are given, else by the verdict of its entry."""
    if keys is not None:
        return "good by the keys" if is_signed_unit(signed, keys) else "BAD by the keys"
    return f"entry {entry.place} says {'good' if entry.verdict else 'bad'}; unchecked without keys"


# ---- a unit in full


def own_rows(unit, look):
    """What a unit says of itself, but for its panorama, as pairs of a name and a text."""
    config = look.log.config
    known = unit.creator < len(config.weights)
    weight = f"weight {config.weights[unit.creator]}" if known else "no validator"
    leader = look.reading.leaders.leader(unit.round)
    yield "made by", f"validator {unit.creator} ({weight}), with the number {unit.number}"
    yield "time", f"{unit.time} ms, in the round of {unit.round} (exponent {unit.exponent}, leader {leader})"
    yield "value", block_text(unit.value)
    if unit.instance != config.instance:
        yield "instance", f"{unit.instance.hex()}, and not the log's"


def place_rows(standing, keys):
    """Where a unit is found, and its signature there."""
    for entry, signed in standing:
        inside = "" if isinstance(entry.vertex, SignedUnit) else " inside evidence"
        place = f"entry {entry.place}{inside} at byte {entry.offset}, {entry.length} bytes"
        yield "found in", f"{place}, verdict {int(entry.verdict)}"
        yield "signature", f"{signed.signature.hex()}  {signed_text(signed, entry, keys)}"


def slot_text(look, seen):
    """An observation, with the unit that it names."""
    if seen in (ABSENT, FAULTY):
        return "absent" if seen == ABSENT else "faulty"
    node = look.reading.nodes.get(seen)
    known = f"{node.unit.creator}#{node.unit.number} of entry {node.entry.place}" if node else "not in the journal"
    return f"{seen.hex()}  {known}"


def endorsers_text(look, digest):
    """Who endorses a unit, or None."""
    reading = look.reading
    who, since = reading.endorsers.get(digest), reading.endorsed_since.get(digest)
    if not who:
        return None
    weight = sum(look.log.config.weights[each] for each in who)
    is_enough = f"endorsed since entry {since.place}" if since else "not enough"
    return f"{listed(map(str, sorted(who)))}, weight {weight} of {reading.total}: {is_enough}"


def unit_lines(look, digest, keys=None, finals=()):
    """A unit in full, as lines: itself, its state, where it is found, panorama, list, and who cites it."""
    standing, node = look.standing(digest), look.reading.nodes.get(digest)
    unit = standing[0][1].unit
    rows = [*own_rows(unit, look), ("state", state_text(node))]
    if node and node.state == SETTLED:
        rows.append(("votes for", vote_text(node)))
    rows += [("final", final_text(final, look.log.config.weights)) for final in finals if final.digest == digest]
    rows += [*place_rows(standing, keys), ("panorama", "")]
    rows += [(f"  {who:>4}", slot_text(look, seen)) for who, seen in enumerate(unit.panorama)]
    rows.append(("endorsed", listed((each.hex() for each in unit.endorsed), 256)))
    citing = [other for other in look.reading.nodes.values() if digest in other.unit.panorama]
    rows.append(("cited by", listed(f"{named(other.unit)} of entry {other.entry.place}" for other in citing)))
    if endorsers := endorsers_text(look, digest):
        rows.append(("endorsers", endorsers))
    return [f"unit {digest.hex()}", *(f"  {name:<10} {text}".rstrip() for name, text in rows)]
