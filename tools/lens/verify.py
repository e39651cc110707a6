"""`lens.py verify LOG KEYS [--signatures FILE]`: checks each signature, and lists the entries whose verdict isn't what the keys say."""
from lens.detached import read_scheme
from lens.log import Endorsement, Evidence, LogReader, each_entry, is_signed, is_signed_unit, read_head, short
from lens.show import Progress, counted, named

KINDS = ("unit", "evidence", "endorsement")


def signers(vertex, keys):
    """Each signed part of a vertex in few words, and whether its signature is right."""
    if isinstance(vertex, Evidence):
        sides = (("left", vertex.left), ("right", vertex.right))
        return [(f"evidence's {side} {named(signed.unit)}", is_signed_unit(signed, keys)) for side, signed in sides]
    if isinstance(vertex, Endorsement):
        return [(f"endorsement of {short(vertex.unit)} by {vertex.endorser}", is_signed(vertex, keys))]
    return [(f"unit {named(vertex.unit)}", is_signed_unit(vertex, keys))]


def complaint(entry, keys):
    """The line on an entry whose verdict byte isn't what the keys say."""
    why = ", ".join(f"{what}: {'good' if good else 'BAD'} signature" for what, good in signers(entry.vertex, keys))
    said, right = int(entry.verdict), int(is_signed(entry.vertex, keys))
    return f"entry {entry.place} at byte {entry.offset}: verdict {said}, and the keys say {right} ({why})"


def summary(reader, counts, good, wrong):
    """The lines on the whole log."""
    kinds = ", ".join(counted(count, name, name if name == "evidence" else None) for name, count in counts.items())
    entries = counted(reader.place, "entry", "entries")
    yield f"{entries} ({kinds}): {good} with good signatures, {reader.place - good} without"
    yield f"verdicts that aren't what the keys say: {wrong}"
    if reader.pending:
        yield f"torn at {reader.at}: the last entry is cut, and wasn't checked"


def run(arguments):
    """Lists the entries whose verdict is wrong, then the counts; 1 where there is such an entry."""
    keys = read_scheme(arguments, len(read_head(arguments.log).weights))
    reader, progress = LogReader(arguments.log), Progress(arguments, "checked bytes")
    counts, good, wrong = dict.fromkeys(KINDS, 0), 0, 0
    for entry in each_entry(arguments.log, reader, progress):
        right = is_signed(entry.vertex, keys)
        counts[entry.name] += 1
        good += right
        if right != entry.verdict:
            wrong += 1
            print(complaint(entry, keys))
    progress.finish()
    print("\n".join(summary(reader, counts, good, wrong)))
    return 1 if wrong else 0
