#!/usr/bin/env python3
"""Writes a log that is hard on a replay.

    python3 tools/measure/worst_logs.py KIND LOG [--validators 10] [--rounds 100] ..
    python3 tools/measure/worst_logs.py rounds heal.hwlg --rounds 1602 --silent 4 --heal 1600

The kinds are those of `python3 tools/measure/worst_logs.py --help`, and each has options of its own. A log has version 1, all verdicts are true
and all signatures are zero. The same words make the same bytes. The status is 2 where the words aren't understood.

It stands outside the gate and proves nothing.
"""
import argparse
import dataclasses
import hashlib
import random
import sys

EXPONENT = 14
ROUND = 1 << EXPONENT
SIGNATURE = bytes(32)
ABSENT, CORRECT, FAULTY = b"\0", b"\1", b"\2"


def big_endian(number, size):
    """The number as so many bytes, the highest first."""
    return number.to_bytes(size, "big")


@dataclasses.dataclass(frozen=True)
class Config:
    """The configuration of a log: how many validators, what each weighs, whose turn it is, and the limits."""

    validators: int
    weights: tuple = ()
    threshold: int = -1
    leaders: tuple = ()
    records: int = 0
    parked: int = 16384

    def spelling(self):
        """Its bytes. Where nothing is said each validator weighs 1, all take turns, a third may be faulty, and there is
        room for as many records as may be."""
        weights = self.weights or (1,) * self.validators
        leaders = self.leaders or tuple(range(self.validators))
        records = self.records or (131072 if self.validators <= 256 else 32768)
        threshold = (self.validators - 1) // 3 if self.threshold < 0 else self.threshold
        words = [
            big_endian(1, 1),
            big_endian(self.validators, 4),
            *(big_endian(weight, 8) for weight in weights),
            big_endian(threshold, 8),
            bytes([3, EXPONENT, 20, 0]),
            big_endian(len(leaders), 4),
            *(big_endian(leader, 4) for leader in leaders),
            big_endian(records, 4),
            big_endian(self.parked, 4),
        ]
        return b"".join(words)


@dataclasses.dataclass(frozen=True)
class Unit:
    """A unit as bytes, and its name."""

    spelling: bytes
    name: bytes


class Spelling:
    """Spells units of one configuration."""

    def __init__(self, config):
        self.validators = config.validators
        self.instance = hashlib.sha256(config.spelling()).digest()

    def unit(self, creator, sequence, time, panorama, value=None, endorsed=()):
        """The unit that cites those of the panorama: a name, None or FAULTY for each validator."""
        parts = [self.instance, big_endian(creator, 4), big_endian(sequence, 8), big_endian(time, 8), bytes([EXPONENT])]
        parts += [big_endian(len(panorama), 4), *(observation(slot) for slot in panorama)]
        parts += [b"\0"] if value is None else [b"\1", big_endian(len(value), 4), value]
        parts += [big_endian(len(endorsed), 4), *endorsed]
        spelling = b"".join(parts)
        return Unit(spelling, hashlib.sha256(spelling).digest())

    def nothing(self):
        """The panorama of a unit that cites nothing."""
        return [None] * self.validators


def observation(slot):
    """The bytes of one slot of a panorama."""
    if slot is None:
        return ABSENT
    return FAULTY if slot == FAULTY else CORRECT + slot


def of_unit(unit):
    """The vertex of a unit."""
    return b"\1" + unit.spelling + SIGNATURE


def of_endorsement(name, endorser):
    """The vertex of an endorsement of the unit of that name."""
    return b"\3" + name + big_endian(endorser, 4) + SIGNATURE


def log_bytes(config, vertices):
    """The pieces of the log of these vertices, one after the other."""
    spelling = config.spelling()
    yield b"HWLG" + big_endian(1, 1) + big_endian(len(spelling), 4) + spelling
    for vertex in vertices:
        yield b"\1\1" + big_endian(len(vertex), 4) + vertex


def ordered(vertices, order, seed=3):
    """The vertices as they were made, backwards, or shuffled."""
    if order == "reversed":
        return vertices[::-1]
    if order == "shuffled":
        vertices = vertices[:]
        random.Random(seed).shuffle(vertices)
    return vertices


class Rounds:
    """Rounds of one block and two units a validator, and what goes wrong in them."""

    def __init__(self, options):
        self.options, self.config = options, Config(options.validators)
        self.count, self.random, self.spell = options.validators, random.Random(options.seed), Spelling(self.config)
        self.latest, self.before = self.spell.nothing(), self.spell.nothing()
        self.sequence, self.silent = [0] * self.count, [False] * self.count
        self.endorsed, self.listed, self.names, self.vertices = [], False, [], []

    def run(self):
        """All vertices, in the order in which they come."""
        for number in range(1, self.options.rounds + 1):
            self.round(number)
        if self.options.order == "shuffled":
            self.random.shuffle(self.vertices)
        return ordered(self.vertices, "reversed" if self.options.order == "reversed" else "made")

    def round(self, number):
        """One round."""
        options, start, leader = self.options, number * ROUND, number % self.count
        if number == options.heal:
            self.silent = [False] * self.count
        if not self.silent[leader]:
            self.block(leader, start)
        seen = list(self.latest)
        units = [unit for _, unit in self.phase([v for v in self.speakers() if v != leader], start + 50)]
        marks = None
        if options.equivocators and number == 2:
            marks = self.fork(self.last(options.equivocators, leader), start, seen, units)
        if options.second_lanes and number == 1:
            for validator in self.last(options.second_lanes, leader):
                units.append(self.other(validator, start, seen))
        self.put(units)
        if not (options.late and number == 1):
            self.witness(leader, start + 2 * ROUND // 3 + 100, marks)
        self.list_units(number)
        if options.silent and number == 1:
            for validator in range(self.count - options.silent, self.count):
                self.silent[validator] = True

    def speakers(self):
        """Those who make units."""
        return [validator for validator in range(self.count) if not self.silent[validator]]

    def last(self, count, leader):
        """So many validators at the end, but for the leader."""
        return [validator for validator in range(self.count - count, self.count) if validator != leader]

    def block(self, leader, start):
        """The leader's block."""
        value = big_endian(start // ROUND, 8) + b"\xb1" * 24
        unit = self.spell.unit(leader, self.sequence[leader], start, self.latest, value, self.endorsed)
        self.settle(leader, unit)
        self.vertices.append(of_unit(unit))

    def settle(self, creator, unit):
        """It is its creator's latest unit."""
        self.sequence[creator] += 1
        self.before[creator], self.latest[creator] = self.latest[creator], unit.name
        self.names.append(unit.name)

    def phase(self, creators, start, marks=None, leader=None):
        """A unit of each, of what was there before the phase. Where there are marks, every other one has them."""
        made = []
        for creator in creators:
            panorama = list(marks if marks and creator % 2 else self.latest)
            if self.options.late and leader is not None:
                self.delay(panorama, creator, leader)
            made.append(
                (
                    creator,
                    self.spell.unit(creator, self.sequence[creator], start + creator, panorama, None, self.endorsed),
                )
            )
        for creator, unit in made:
            self.settle(creator, unit)
        return made

    def delay(self, panorama, creator, leader):
        """Some units come late to it: it cites the ones before them."""
        for other in range(self.count):
            if other in (creator, leader):
                continue
            late = self.random.random() < self.options.late
            if late and self.before[other] is not None and panorama[other] != FAULTY:
                panorama[other] = self.before[other]

    def other(self, validator, start, seen):
        """One more unit of the validator with the number of its latest one."""
        return self.spell.unit(validator, self.sequence[validator] - 1, start + 1000, seen, None, self.endorsed)

    def fork(self, forked, start, seen, units):
        """These equivocate and fall silent. Answers a panorama of their other units, for those who see these first."""
        marks = list(self.latest)
        for validator in forked:
            unit = self.other(validator, start, seen)
            units.append(unit)
            self.silent[validator] = True
            marks[validator] = unit.name
        return marks

    def put(self, units):
        """They come in any order."""
        self.random.shuffle(units)
        self.vertices += [of_unit(unit) for unit in units]

    def witness(self, leader, start, marks):
        """The last units of the round. Where two sides saw two units of an equivocator, all mark it from now on."""
        made = self.phase(self.speakers(), start, marks, leader)
        self.put([unit for _, unit in made])
        if marks is None:
            return
        seen = next(unit.name for creator, unit in made if creator % 2)
        self.vertices += [of_endorsement(seen, endorser) for endorser in range(self.count * 6 // 10)]
        self.endorsed = sorted([*self.endorsed, seen])
        for validator in self.last(self.options.equivocators, leader):
            self.latest[validator] = FAULTY

    def list_units(self, number):
        """From some round on all units list so many endorsed units, the first that were made."""
        count = self.options.endorsed
        if not count or self.listed or number != max(2, 1 + count // (2 * self.count)):
            return
        self.listed = True
        for name in self.names[:count]:
            self.vertices += [of_endorsement(name, endorser) for endorser in range(self.count // 2 + 1)]
        self.endorsed = sorted({*self.endorsed, *self.names[:count]})


def rounds(options):
    """Rounds of one block by the leader and two units of each validator, all of which cite all they can."""
    made = Rounds(options)
    return made.config, made.run()


def lane(options):
    """One validator's lane, a unit a round, which cite that lane alone."""
    config = Config(options.validators)
    spell, latest, units = Spelling(config), None, []
    for place in range(options.units):
        panorama = [latest, *spell.nothing()[1:]]
        value = b"x" * 8 if place == 0 else None
        unit = spell.unit(0, place, (options.validators + place) * ROUND, panorama, value)
        latest = unit.name
        units.append(of_unit(unit))
    return config, ordered(units, options.order)


def solo(options):
    """One validator of great weight makes a block each round, alone: each is final as it comes."""
    weights = (1000,) + (1,) * (options.validators - 1)
    config = Config(options.validators, weights=weights, threshold=0, leaders=(0,))
    spell, latest, units = Spelling(config), None, []
    for place in range(options.units):
        panorama = [latest, *spell.nothing()[1:]]
        unit = spell.unit(0, place, (place + 1) * ROUND, panorama, b"v" * 8)
        latest = unit.name
        units.append(of_unit(unit))
    return config, ordered(units, options.order)


def fan(options):
    """Units that all wait for one, which comes last and releases all."""
    config = Config(options.validators, records=20000)
    spell, start = Spelling(config), options.validators * ROUND
    root = spell.unit(0, 0, start, spell.nothing(), b"r")
    panorama = [root.name, *spell.nothing()[1:]]
    waiting = [spell.unit(1, 0, start + 1 + place, panorama) for place in range(options.units)]
    return config, [of_unit(unit) for unit in [*waiting, root]]


def needs(options):
    """Units that each wait for the first units of all validators, which come last."""
    config = Config(options.validators, records=20000)
    spell, start = Spelling(config), options.validators * ROUND
    root = spell.unit(0, 0, start, spell.nothing(), b"r")
    panorama = [root.name, *spell.nothing()[1:]]
    firsts = [spell.unit(creator, 0, start + creator, panorama) for creator in range(1, options.validators)]
    cited = [root.name, *(unit.name for unit in firsts)]
    waiting = [spell.unit(1 + place % len(firsts), 1, start + 5000 + place, cited) for place in range(options.units)]
    return config, [of_unit(unit) for unit in [*waiting, *firsts, root]]


def missing(options):
    """Units that each wait for as many units as there are validators, which never come."""
    config = Config(options.validators)
    spell, names = Spelling(config), random.Random(options.seed)
    vertices = []
    for place in range(options.units):
        panorama = [names.randbytes(32) for _ in range(options.validators)]
        vertices.append(
            of_unit(spell.unit(place % options.validators, 1, options.validators * ROUND + place, panorama))
        )
    return config, vertices


def endorsements(options):
    """Endorsements of units that never come."""
    names = random.Random(options.seed)
    vertices = [of_endorsement(names.randbytes(32), place % options.validators) for place in range(options.units)]
    return Config(options.validators, parked=4096), vertices


def equivocations(options):
    """Blocks of one validator that all have the number 0."""
    config = Config(options.validators, parked=4096)
    spell = Spelling(config)
    times = (options.validators * ROUND * (place + 1) for place in range(options.units))
    return config, [of_unit(spell.unit(0, 0, time, spell.nothing(), b"v" * 8)) for time in times]


def stale(options):
    """One leader's block each round, and the other validators vote in turn, so that votes stand at many heights."""
    config = Config(options.validators, leaders=(0,), parked=4096)
    spell, turn = Spelling(config), options.validators // 2 + 1
    latest, sequence, vertices = spell.nothing(), [0] * options.validators, []
    for number in range(1, options.rounds + 1):
        for creator in [0, *(v for v in range(1, options.validators) if number % turn == v % turn)]:
            value, late = (big_endian(number, 8), 0) if creator == 0 else (None, 50 + creator)
            unit = spell.unit(creator, sequence[creator], number * ROUND + late, latest, value)
            sequence[creator] += 1
            latest[creator] = unit.name
            vertices.append(of_unit(unit))
    return config, vertices


def swing(options):
    """Two chains: two leaders each build on their own, half of the others vote for each, and neither side sees the other."""
    config = Config(options.validators, leaders=(0, 1), parked=4096)
    spell, sequence, vertices = Spelling(config), [0] * options.validators, []
    views = [spell.nothing(), spell.nothing()]
    for number in range(2, options.rounds + 2):
        side = number % 2
        block = spell.unit(side, sequence[side], number * ROUND, views[side], big_endian(number, 8))
        views[side][side] = block.name
        voters = [voter for voter in range(2, options.validators) if voter % 2 == side]
        votes = [spell.unit(voter, sequence[voter], number * ROUND + 50 + voter, views[side]) for voter in voters]
        vertices += [of_unit(unit) for unit in [block, *votes]]
        for creator, unit in zip([side, *voters], [block, *votes]):
            sequence[creator] += 1
            views[side][creator] = unit.name
    return config, vertices


def falls(options):
    """Committees whose members fall one by one: each latest unit sees just a quorum, and the last of a chain one less."""
    config = Config(options.validators, threshold=0)
    spell, base, leader = Spelling(config), options.validators // 2, 1
    block = spell.unit(leader, 0, ROUND, spell.nothing(), b"v" * 8)
    panorama = spell.nothing()
    panorama[leader] = block.name
    firsts = [spell.unit(creator, 0, ROUND + 50 + creator, panorama) for creator in range(options.validators)]
    firsts[leader] = block
    latest, units = [unit.name for unit in firsts], [block, *(unit for unit in firsts if unit is not block)]
    for number in range(1, options.rounds + 1):
        for creator in range(options.validators):
            panorama = spell.nothing()
            for seen in seen_in_chain(creator, base, leader, options.validators):
                panorama[seen] = firsts[seen].name
            panorama[creator] = latest[creator]
            unit = spell.unit(creator, number, number * ROUND + 2 * ROUND // 3 + creator, panorama)
            latest[creator] = unit.name
            units.append(unit)
    return config, [of_unit(unit) for unit in units]


def seen_in_chain(creator, base, leader, validators):
    """Whose first units one of a chain sees. Those of the base see each other and the first behind it; each of the others
    sees the next one, and of the base so many that it sees a quorum with it."""
    if creator < base:
        return [*range(base), base]
    some = [other for other in range(base) if other != leader][: base - 2]
    return [*some, leader, creator, *range(creator + 1, min(creator + 2, validators))]


def cascade(options):
    """Units that all wait for one, and of each other validator cite the latest unit or the one before."""
    made = Rounds(argparse.Namespace(**{**IN_ORDER, **vars(options), "rounds": 6}))
    vertices, spell, last = made.run(), made.spell, options.validators - 1
    end, choice = 8 * ROUND, random.Random(options.seed)
    root = spell.unit(last, made.sequence[last], end, [*made.before[:last], made.latest[last]])
    for place in range(options.units):
        creator = place % last
        panorama = [choice.choice(pair) for pair in zip(made.latest, made.before)]
        panorama[last], panorama[creator] = root.name, made.latest[creator]
        vertices.append(of_unit(spell.unit(creator, made.sequence[creator], end + 1000 + place, panorama)))
    return made.config, vertices if options.withheld else [*vertices, of_unit(root)]


KINDS = {
    kind.__name__: kind
    for kind in (rounds, lane, solo, fan, needs, missing, endorsements, equivocations, stale, swing, falls, cascade)
}
IN_ROUNDS = {"rounds", "stale", "swing", "falls"}
IN_ANY_ORDER = {"rounds", "lane", "solo"}
# The options of rounds in which nothing goes wrong.
IN_ORDER = {"order": "made", "silent": 0, "heal": 0, "equivocators": 0, "second_lanes": 0, "endorsed": 0, "late": 0.0}


def natural(text):
    """A number from 0 on."""
    number = int(text)
    if number < 0:
        raise argparse.ArgumentTypeError(f"{text} is below 0")
    return number


def share(text):
    """A share of the whole, from 0 to 1."""
    number = float(text)
    if not 0 <= number <= 1:
        raise argparse.ArgumentTypeError(f"{text} isn't between 0 and 1")
    return number


def add_options(parser, kind):
    """The options of the kind."""
    parser.add_argument("log", metavar="LOG", help="the file that is written")
    parser.add_argument("--validators", type=natural, default=10, help="how many validators, at most 1,024 (10)")
    parser.add_argument(
        "--seed", type=natural, default=1 if kind == "rounds" else 5, help="what the random words begin with"
    )
    if kind in IN_ROUNDS:
        parser.add_argument("--rounds", type=natural, default=100, help="how many rounds (100)")
    else:
        parser.add_argument("--units", type=natural, default=1000, help="how many units or endorsements (1,000)")
    if kind in IN_ANY_ORDER:
        parser.add_argument(
            "--order", choices=("made", "reversed", "shuffled"), default="made", help="how they come (made)"
        )
    if kind == "cascade":
        parser.add_argument("--withheld", action="store_true", help="the unit that they wait for doesn't come")
    if kind == "rounds":
        told = {
            "--silent": "so many at the end make nothing after the first round",
            "--heal": "in this round the silent ones are back",
            "--equivocators": "so many at the end equivocate in the second round, and all others mark them",
            "--second-lanes": "so many at the end have one more first unit, which nobody cites",
            "--endorsed": "so many units are endorsed, and all units list them from then on",
        }
        for name, text in told.items():
            parser.add_argument(name, type=natural, default=0, help=text)
        parser.add_argument("--late", type=share, default=0.0, help="this share of the units come a phase late")


def parser_of_words():
    """What the words may be."""
    parser = argparse.ArgumentParser(prog="worst_logs.py", description=__doc__.splitlines()[0])
    kinds = parser.add_subparsers(dest="kind", metavar="KIND", required=True)
    for name, kind in KINDS.items():
        add_options(kinds.add_parser(name, help=kind.__doc__.lower().rstrip(".")), name)
    return parser


def options_of(words):
    """What the words ask for. Words that aren't understood end the program with status 2."""
    parser = parser_of_words()
    options = parser.parse_args(words)
    least = {"fan": 2, "needs": 2, "swing": 2, "falls": 6, "cascade": 2}.get(options.kind, 1)
    if not least <= options.validators <= 1024:
        parser.error(f"argument --validators: {options.kind} is of {least} to 1,024 validators")
    for name in ("silent", "equivocators", "second_lanes"):
        if getattr(options, name, 0) > options.validators:
            parser.error(f"argument --{name.replace('_', '-')}: there are {options.validators} validators")
    return options


def write(options):
    """Writes the log, and answers how many entries and bytes it has."""
    config, vertices = KINDS[options.kind](options)
    size = 0
    with open(options.log, "wb") as out:
        for piece in log_bytes(config, vertices):
            size += out.write(piece)
    return len(vertices), size


def main(words):
    """Writes the log that the words ask for."""
    options = options_of(words)
    try:
        entries, size = write(options)
    except OSError as error:
        print(f"{options.log}: {error.strerror}", file=sys.stderr)
        return 2
    print(f"entries {entries} bytes {size}")
    return 0


if __name__ == "__main__":
    sys.exit(main(sys.argv[1:]))
