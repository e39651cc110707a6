"""`lens.py evidence LOG`: for each faulty validator the pair that shows it. Who is faulty is the program's word.

`evidence LEFT RIGHT` shows the pair of each culprit of the program's `audit`. With `--out NEW` the pairs are written as a
log of their own, which anybody checks who has the keys: `verify` its signatures, `replay` names the faulty.
"""
from lens.detached import read_scheme
from lens.draw import check_new, write_new
from lens.log import Evidence, SignedUnit, is_signed_unit, spelled_log
from lens.program import ProgramError
from lens.show import Look, counted, unit_lines


def pair_against(look, creator):
    """The digests of the pair that the journal has against a validator, and where it is from.

    It is the evidence of the journal; without one, the two settled units of the least digests at the least number that
    has two.
    """
    entry = look.reading.accused.get(creator)
    if entry is not None:
        pair = (entry.vertex.left.unit.digest, entry.vertex.right.unit.digest)
        return pair, f"the evidence of entry {entry.place}"
    forks = look.reading.forks_of(creator)
    if not forks:
        raise ProgramError(f"the program says that {creator} is faulty, and the lens finds no pair in {look.path}")
    number, nodes = next(iter(forks.items()))
    one, other = sorted(nodes, key=lambda node: node.unit.digest)[:2]
    places = f"entries {one.entry.place} and {other.entry.place}"
    return (one.unit.digest, other.unit.digest), f"two settled units with the number {number}, {places}"


def against_lines(look, creator, keys):
    """All that shows a validator faulty, as lines."""
    pair, source = pair_against(look, creator)
    weight, since = look.log.config.weights[creator], look.reading.faulty_since[creator]
    yield f"validator {creator} (weight {weight}) is faulty since entry {since.place}: {source}"
    for digest in pair:
        yield from ("  " + line for line in unit_lines(look, digest, keys))


def signed_in(look, digest, keys):
    """The signed unit of a digest in a log: one with a good signature, by the keys or else by its entry's verdict."""
    found = look.standing(digest)
    good = (signed for entry, signed in found if (is_signed_unit(signed, keys) if keys else entry.verdict))
    return next(good, found[0][1] if found else None)


def pair_from(looks, digests, keys):
    """A pair as evidence, each unit from the first of these logs that has it."""
    units = [next(filter(None, (signed_in(look, digest, keys) for look in looks)), None) for digest in digests]
    if not all(isinstance(unit, SignedUnit) for unit in units):
        raise ProgramError("the program names a unit that the lens doesn't find in the logs")
    return Evidence(*units)


def write_pairs(arguments, config, pairs):
    """Writes the pairs as a log of evidence."""
    if not arguments.out:
        return
    write_new(arguments.out, spelled_log(config, [(True, pair) for pair in pairs]), arguments.force)
    print(
        f"{counted(len(pairs), 'pair')} written to {arguments.out}: who has the keys checks it by `verify` and `replay`"
    )


def of_two(arguments, look, keys):
    """The pairs of an audit's culprits."""
    other = Look(arguments.right, arguments)
    other.refuse_fault()
    verdict = look.program().audit(look.file, other.file)
    if verdict.agree is not None:
        print(f"No conflict: the two logs agree on {counted(verdict.agree, 'final block')}, and nothing is written.")
        return 0
    pairs = [pair_from((look, other), digests, keys) for _, *digests in verdict.culprits]
    for (who, *digests), pair in zip(verdict.culprits, pairs):
        print(
            f"validator {who} (weight {look.log.config.weights[who]}) made two units with the number {pair.left.unit.number}"
        )
        for digest in digests:
            holder = look if look.standing(digest) else other
            print("\n".join(f"  {line}" for line in [f"in {holder.path}", *unit_lines(holder, digest, keys)]))
    print(f"culprits' weight {verdict.weight}, above the threshold {verdict.threshold}")
    write_pairs(arguments, look.log.config, pairs)
    return 0


def of_one(arguments, look, keys):
    """The pairs of the faulty validators of a log."""
    report, pairs = look.program().replay(look.file_before_limit()), []
    if not report.faulty:
        print(f"{look.path}: nobody is faulty")
    for creator in report.faulty:
        print("\n".join(against_lines(look, creator, keys)))
        pairs.append(pair_from([look], pair_against(look, creator)[0], keys))
    weight = sum(look.log.config.weights[creator] for creator in report.faulty)
    said = "doesn't exceed" if report.exceeded is None else "exceeds"
    print(f"faulty weight {weight}, which {said} the threshold {look.log.config.threshold}")
    if pairs:
        write_pairs(arguments, look.log.config, pairs)
    return 0


def run(arguments):
    """Shows the pairs, and answers 0."""
    if arguments.out:
        check_new(arguments.out, arguments.force)
    look = Look(arguments.log, arguments)
    look.refuse_fault()
    keys = read_scheme(arguments, len(look.log.config.weights)) if arguments.keys else None
    return of_one(arguments, look, keys) if arguments.right is None else of_two(arguments, look, keys)
