"""Worlds made by hand, as logs: the running example of docs/DEFINITIONS.md, and what tests make of it."""
from dataclasses import replace

from lens.log import (
    Config,
    Endorsement,
    Evidence,
    SignedUnit,
    StandIn,
    Unit,
    digest_of,
    endorsement_signature,
    spelled_config,
    unit_signature,
    with_digest,
)

EXAMPLE = """
a0 by 0 at 16 cites - - - - block x
b0 by 1 at 18 cites a0 - - -
c0 by 2 at 18 cites a0 - - -
d0 by 3 at 19 cites a0 - - -
f0 by 3 at 20 cites a0 - - -
b1 by 1 at 27 cites a0 b0 c0 -
c1 by 2 at 27 cites a0 b0 c0 -
b2 by 1 at 32 cites a0 b1 c1 d0 block y
c2 by 2 at 43 cites a0 b1 c1 f0
c3 by 2 at 48 cites a0 b1 c2 f0 block z
a1 by 0 at 58 cites a0 b2 c2 ! endorsed b2
"""
CLAUSES = ("by", "at", "exp", "number", "cites", "block", "endorsed")
EXAMPLE_ORDER = "a0 b0 c0 d0 f0 b1 c1 b2 c2 c3 b2:1 b2:2 a1"


def make_config(weights, threshold, **others):
    """A configuration with its instance; fields that aren't named are those of the running example."""
    common = {"levels": 2, "least": 4, "greatest": 8, "leaders": (0,), "records": 131072, "parked": 4096, "end": None}
    bare = Config(tuple(weights), threshold, **(common | others))
    return replace(bare, instance=digest_of(spelled_config(bare)))


def sample_keys(count):
    """Keys of a test network for so many validators."""
    return StandIn(digest_of(b"key %d" % who) for who in range(count))


def clauses(words):
    """The words behind each word that begins a clause."""
    parts, key = {}, None
    for word in words:
        if word in CLAUSES:
            key = word
            parts[key] = []
        else:
            parts[key].append(word)
    return parts


class World:
    """Units by name, as a script names them, each signed with its creator's sample key."""

    def __init__(self, config):
        self.config, self.keys, self.units = config, sample_keys(len(config.weights)), {}

    def unit(self, line):
        """Defines a unit by a line as above; `exp E` and `number N` may be there too. Answers it signed."""
        name, *words = line.split()
        parts = clauses(words)
        panorama = tuple(self.units[word].unit.digest if word in self.units else word for word in parts["cites"])
        creator, time = int(parts["by"][0]), int(parts["at"][0])
        own = self.units.get(parts["cites"][creator]) if creator < len(panorama) else None
        number = int(parts["number"][0]) if "number" in parts else own.unit.number + 1 if own else 0
        exponent = int(parts["exp"][0]) if "exp" in parts else self.config.least
        value = parts["block"][0].encode() if "block" in parts else None
        endorsed = tuple(sorted(self.units[word].unit.digest for word in parts.get("endorsed", ())))
        unit = Unit(self.config.instance, creator, number, time, exponent, panorama, value, endorsed)
        self.units[name] = self.signed(with_digest(unit))
        return self.units[name]

    def signed(self, unit):
        key = self.keys[unit.creator] if unit.creator < len(self.keys) else bytes(32)
        return SignedUnit(unit, unit_signature(key, unit))

    def endorsement(self, name, who):
        digest = self.units[name].unit.digest
        return Endorsement(digest, who, endorsement_signature(self.keys[who], digest, who))

    def evidence(self, left, right):
        return Evidence(self.units[left], self.units[right])

    def vertex(self, word):
        """`NAME`, `NAME:V` (an endorsement by V), or `NAME/NAME` (an evidence)."""
        if ":" in word:
            name, who = word.split(":")
            return self.endorsement(name, int(who))
        return self.evidence(*word.split("/")) if "/" in word else self.units[word]

    def pairs(self, order):
        """Vertices in this order, each with a true verdict, as the entries of a log."""
        return [(True, self.vertex(word)) for word in order.split()]


def running_example(end=None):
    """The eleven units of four validators of docs/DEFINITIONS.md, section 2."""
    world = World(make_config((3, 4, 5, 2), 2, leaders=(3, 0, 1, 2), end=end))
    for line in EXAMPLE.strip().splitlines():
        world.unit(line)
    return world
