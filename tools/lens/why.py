"""`lens.py why LEFT RIGHT`: the conflict of two logs as a story. Conflict and culprits are the program's word."""
from lens.detached import read_scheme
from lens.log import is_signed, short
from lens.show import Look, block_text, counted, listed, parent_text, unit_lines

MOST_BLOCKS = 5


class Side:
    """One of two logs, and what the program says is final in it."""

    def __init__(self, name, path, arguments):
        self.name, self.look = name, Look(path, arguments)
        self.look.refuse_fault()
        self.finals = self.look.program().explain(self.look.file)
        self.keys = read_scheme(arguments, len(self.look.log.config.weights)) if arguments.keys else None

    def wrong(self):
        """The entries whose verdict byte isn't what the keys say."""
        return [entry for entry in self.look.log.entries if is_signed(entry.vertex, self.keys) != entry.verdict]

    def final_at(self, height):
        return next((final for final in self.finals if final.height == height), None)

    def short_at(self, height):
        final = self.final_at(height)
        return short(final.digest) if final else "-"


def chain_lines(left, right, parting):
    """The two chains up to where they part, and some blocks above."""
    for side in (left, right):
        yield f"{side.name}: {side.look.path}, {counted(len(side.finals), 'final block')}"
    yield "  height  left      right"
    if parting > MOST_BLOCKS:
        yield f"  0 to {parting - MOST_BLOCKS - 1}: the same blocks"
    longest = max(len(left.finals), len(right.finals))
    for height in range(max(0, parting - MOST_BLOCKS), min(parting + MOST_BLOCKS, longest)):
        mark = "  here they part" if height == parting else ""
        yield f"  {height:>6}  {left.short_at(height):<8}  {right.short_at(height):<8}{mark}"
    if longest > parting + MOST_BLOCKS:
        yield f"  and {counted(longest - parting - MOST_BLOCKS, 'height')} more"


def summit_lines(side, height):
    """The final block of one side at a height, and the committee that made it final."""
    final, weights = side.final_at(height), side.look.log.config.weights
    node = side.look.node_of(final)
    unit, entry = node.unit, side.look.entry_of(final)
    yield f"The {side.name.lower()} block {final.digest.hex()}"
    yield f"  made by {unit.creator} at {unit.time}, value {block_text(unit.value)}, on {parent_text(node)}"
    vertices = counted(final.at, "vertex", "vertices")
    yield f"  final at level {final.level} with the quorum {final.quorum}, since entry {entry.place} ({vertices})"
    yield f"  its committee weighs {sum(weights[who] for who in final.committee)}:"
    for who, (first, *later) in sorted(final.committee.items()):
        levels = ", ".join(f"level {level} from {start}" for level, start in enumerate(later, 1))
        yield f"    {who} (weight {weights[who]}): votes for it from its number {first} on; {levels}"


def both_line(left, right, height, culprits):
    """Who is in both committees."""
    weights = left.look.log.config.weights
    both = sorted(set(left.final_at(height).committee) & set(right.final_at(height).committee))
    members = listed(f"{who} (weight {weights[who]}{', a culprit' if who in culprits else ''})" for who in both)
    return f"In both committees: {members}; together {sum(weights[who] for who in both)}."


def pair_lines(left, right, pair):
    """Both units of a culprit's pair in full, each from a log that has it."""
    for digest in pair:
        holding = [(side, side.look.standing(digest)) for side in (left, right)]
        holding = [(side, found[0][0].place) for side, found in holding if found]
        yield "  " + " and ".join(f"{side.name.lower()} has it in entry {place}" for side, place in holding)
        if holding:
            yield from ("  " + line for line in unit_lines(holding[0][0].look, digest, left.keys))


def story(left, right, verdict):
    """The conflict as lines."""
    weights, culprits = left.look.log.config.weights, [who for who, _, _ in verdict.culprits]
    yield from chain_lines(left, right, verdict.height)
    for side in (left, right):
        yield ""
        yield from summit_lines(side, verdict.height)
    yield "\n" + both_line(left, right, verdict.height, culprits)
    yield f"\nCulprits, of weight {verdict.weight}, which is above the threshold {verdict.threshold}:"
    for who, *pair in verdict.culprits:
        yield f"validator {who} (weight {weights[who]}) made two units with one number:"
        yield from pair_lines(left, right, pair)
    if left.keys is None:
        yield "\nThis believes the verdict of each entry: run `verify` on both logs before anybody is accused."


def checked_lines(side, wrong):
    """What the keys say of a log's verdicts."""
    entries = counted(len(side.look.log.entries), "entry", "entries")
    if not wrong:
        yield f"{side.name}: by the keys the verdict of each of {entries} is right."
        return
    some = listed((f"entry {entry.place}, verdict {int(entry.verdict)}" for entry in wrong), MOST_BLOCKS)
    yield f"{side.name}: by the keys {len(wrong)} of {entries} have a WRONG verdict, so accuse nobody by this log: {some}"


def check(sides):
    """Shows what the keys say of both logs. Answers 1 where a verdict is wrong, else 0; without keys 0."""
    if sides[0].keys is None:
        return 0
    found = [(side, side.wrong()) for side in sides]
    print("\n".join(line for side, wrong in found for line in checked_lines(side, wrong)))
    return 1 if any(wrong for _, wrong in found) else 0


def run(arguments):
    """Tells the conflict, or that there is none. Answers 0, or 1 where the keys say that a verdict is wrong."""
    sides = Side("Left", arguments.left, arguments), Side("Right", arguments.right, arguments)
    verdict = sides[0].look.program().audit(*(side.look.file for side in sides))
    if verdict.agree is not None:
        print(f"No conflict: the two logs agree on {counted(verdict.agree, 'final block')}.")
    else:
        print("\n".join(story(*sides, verdict)))
    return check(sides)
