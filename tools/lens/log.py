"""Reads the documented formats: logs of both versions, vertices, configurations, keys and signatures.

It is written from docs/FORMATS.md alone, so it is a second pair of eyes on that page. It proves nothing.

The model, in short:

    Log(config, version, entries, size, torn)       torn: the first byte of an entry that the file cuts, or None
    Entry(place, offset, length, kind, verdict, vertex)
    vertex: SignedUnit(unit, signature) | Evidence(left, right) | Endorsement(unit, endorser, signature)
    Unit(instance, creator, number, time, exponent, panorama, value, endorsed, digest)

An observation of a panorama is ABSENT, FAULTY, or the 32 bytes of a digest.
"""
import hashlib
from dataclasses import dataclass, field, replace

ABSENT, FAULTY = "-", "!"
DIGEST = 32
MAGIC = b"HWLG"
MOST_VALIDATORS, MOST_VALUE, MOST_ENDORSED, MOST_LEADERS = 1024, 4096, 256, 4096
MOST_FRAME = 1 << 20
TIME_LIMIT = 1 << 63
CHUNK = 1 << 20


class CodecError(Exception):
    """The first field that a reader refuses: `what`, and the place where that field begins."""

    def __init__(self, what, place):
        super().__init__(f"{what} at {place}")
        self.what, self.place = what, place


class InputError(Exception):
    """A file's bytes aren't what they should be. `text` says why, in the program's words; `place` is a byte or None."""

    def __init__(self, name, text, place=None):
        super().__init__(f"input {name}: {text}")
        self.name, self.text, self.place = str(name), text, place


# ---- the model


@dataclass(frozen=True, slots=True)
class Unit:
    """A unit as it is spelled, and its digest, which is its name. `number` is the sequence number on the lane."""

    instance: bytes
    creator: int
    number: int
    time: int
    exponent: int
    panorama: tuple
    value: bytes | None
    endorsed: tuple
    digest: bytes = field(default=b"", compare=False, repr=False)

    @property
    def round(self):
        """The beginning of the unit's round, in milliseconds."""
        return self.time >> self.exponent << self.exponent

    @property
    def is_block(self):
        return self.value is not None

    def cited(self):
        """The digests that the panorama observes as Correct, by validator."""
        return {who: seen for who, seen in enumerate(self.panorama) if isinstance(seen, bytes)}

    def own(self):
        """The digest of its creator's unit that it goes on from, or None."""
        seen = self.panorama[self.creator] if self.creator < len(self.panorama) else ABSENT
        return seen if isinstance(seen, bytes) else None


@dataclass(frozen=True, slots=True)
class SignedUnit:
    unit: Unit
    signature: bytes


@dataclass(frozen=True, slots=True)
class Evidence:
    left: SignedUnit
    right: SignedUnit


@dataclass(frozen=True, slots=True)
class Endorsement:
    """`unit` is the digest of the endorsed unit."""

    unit: bytes
    endorser: int
    signature: bytes


@dataclass(frozen=True, slots=True)
class Config:
    """`leaders` is a tuple (a table by round), or the 32 bytes of the key from which they are drawn."""

    weights: tuple
    threshold: int
    levels: int
    least: int
    greatest: int
    leaders: tuple | bytes
    records: int
    parked: int
    end: int | None
    instance: bytes = field(default=b"", compare=False, repr=False)


@dataclass(frozen=True, slots=True)
class Entry:
    """An entry: its place from 1 on, its first byte in the file, its length in bytes, its vertex's kind byte."""

    place: int
    offset: int
    length: int
    kind: int
    verdict: bool
    vertex: SignedUnit | Evidence | Endorsement

    @property
    def name(self):
        return {SignedUnit: "unit", Evidence: "evidence", Endorsement: "endorsement"}[type(self.vertex)]


@dataclass(slots=True)
class Log:
    """A log up to its last whole entry, which ends at byte `size`. `fault` is what ended the reading there, if any."""

    config: Config
    version: int
    entries: list
    size: int
    torn: int | None = None
    fault: InputError | None = None

    def units(self):
        """Each unit of an entry of its own, by its digest, at its first entry."""
        found = {}
        for entry in self.entries:
            if isinstance(entry.vertex, SignedUnit):
                found.setdefault(entry.vertex.unit.digest, entry)
        return found


# ---- spelling


def digest_of(data):
    return hashlib.sha256(data).digest()


def spelled_observation(seen):
    return b"\x01" + seen if isinstance(seen, bytes) else b"\x00" if seen == ABSENT else b"\x02"


def spelled_tail(value, endorsed):
    """The value and the endorsed units, as they stand at the end of a unit of either form."""
    said = b"\x00" if value is None else b"\x01" + len(value).to_bytes(4) + value
    return said + len(endorsed).to_bytes(4) + b"".join(endorsed)


def spelled_unit(unit):
    head = (
        unit.instance
        + unit.creator.to_bytes(4)
        + unit.number.to_bytes(8)
        + unit.time.to_bytes(8)
        + unit.exponent.to_bytes(1)
        + len(unit.panorama).to_bytes(4)
    )
    return head + b"".join(map(spelled_observation, unit.panorama)) + spelled_tail(unit.value, unit.endorsed)


def with_digest(unit):
    """A unit with its digest, worked out from its full spelling."""
    return replace(unit, digest=digest_of(spelled_unit(unit)))


def spelled_vertex(vertex):
    """The full form, kinds 1 to 3."""
    if isinstance(vertex, SignedUnit):
        return b"\x01" + spelled_unit(vertex.unit) + vertex.signature
    if isinstance(vertex, Evidence):
        return b"\x02" + b"".join(spelled_unit(each.unit) + each.signature for each in (vertex.left, vertex.right))
    return b"\x03" + vertex.unit + vertex.endorser.to_bytes(4) + vertex.signature


def spelled_config(config):
    said = (b"\x01" if config.end is None else b"\x02") + len(config.weights).to_bytes(4)
    said += b"".join(weight.to_bytes(8) for weight in config.weights) + config.threshold.to_bytes(8)
    said += bytes([config.levels, config.least, config.greatest])
    if isinstance(config.leaders, bytes):
        said += b"\x01" + config.leaders
    else:
        said += b"\x00" + len(config.leaders).to_bytes(4) + b"".join(who.to_bytes(4) for who in config.leaders)
    said += config.records.to_bytes(4) + config.parked.to_bytes(4)
    return said if config.end is None else said + config.end.to_bytes(8)


# ---- reading from left to right


class Cursor:
    """Bytes that are read from left to right; a field that doesn't fit in the rest is `truncated` where it begins."""

    def __init__(self, data):
        self.data, self.at = data, 0

    def take(self, size):
        if len(self.data) - self.at < size:
            raise CodecError("truncated", self.at)
        self.at += size
        return self.data[self.at - size : self.at]

    def number(self, size):
        return int.from_bytes(self.take(size))

    def count(self, most):
        at, count = self.at, self.number(4)
        if count > most:
            raise CodecError("too long", at)
        return count

    def tag(self, most):
        at, tag = self.at, self.number(1)
        if tag > most:
            raise CodecError("bad tag", at)
        return tag

    def time(self):
        at, time = self.at, self.number(8)
        if time >= TIME_LIMIT:
            raise CodecError("out of range", at)
        return time

    def observation(self):
        tag = self.tag(2)
        return self.take(DIGEST) if tag == 1 else ABSENT if tag == 0 else FAULTY

    def tail(self):
        value = self.take(self.count(MOST_VALUE)) if self.tag(1) else None
        return value, tuple(self.take(DIGEST) for _ in range(self.count(MOST_ENDORSED)))

    def finish(self):
        if self.at != len(self.data):
            raise CodecError("trailing", self.at)


def read_unit(cursor):
    """A unit in full form. Its digest is that of the bytes that were read, which are its spelling."""
    begin = cursor.at
    instance, creator, number = cursor.take(DIGEST), cursor.number(4), cursor.number(8)
    time, exponent = cursor.time(), cursor.number(1)
    panorama = tuple(cursor.observation() for _ in range(cursor.count(MOST_VALIDATORS)))
    value, endorsed = cursor.tail()
    name = digest_of(cursor.data[begin : cursor.at])
    return Unit(instance, creator, number, time, exponent, panorama, value, endorsed, name)


def read_signed(cursor):
    return SignedUnit(read_unit(cursor), cursor.take(DIGEST))


def read_full(data):
    """A vertex of kinds 1 to 3, and nothing behind it."""
    cursor = Cursor(data)
    kind = cursor.number(1)
    if kind == 1:
        vertex = read_signed(cursor)
    elif kind == 2:
        vertex = Evidence(read_signed(cursor), read_signed(cursor))
    elif kind == 3:
        vertex = Endorsement(cursor.take(DIGEST), cursor.number(4), cursor.take(DIGEST))
    else:
        raise CodecError("bad tag", 0)
    cursor.finish()
    return vertex


def read_config(data):
    cursor = Cursor(data)
    version = cursor.number(1)
    if version not in (1, 2):
        raise CodecError("bad tag", 0)
    weights = tuple(cursor.number(8) for _ in range(cursor.count(MOST_VALIDATORS)))
    threshold, levels = cursor.number(8), cursor.number(1)
    least, greatest = cursor.number(1), cursor.number(1)
    if cursor.tag(1):
        leaders = cursor.take(DIGEST)
    else:
        leaders = tuple(cursor.number(4) for _ in range(cursor.count(MOST_LEADERS)))
    records, parked = cursor.number(4), cursor.number(4)
    end = cursor.number(8) if version == 2 else None
    cursor.finish()
    return Config(weights, threshold, levels, least, greatest, leaders, records, parked, end, digest_of(data))


def config_fault(config):
    """The first limit that the configuration breaks, in the program's words, or None."""
    count, table = len(config.weights), config.leaders
    faults = (
        ("validators", not 1 <= count <= MOST_VALIDATORS),
        (f"zero weight {config.weights.index(0) if 0 in config.weights else 0}", 0 in config.weights),
        ("total", sum(config.weights) > (1 << 62) - 1),
        ("threshold", config.threshold >= sum(config.weights)),
        ("levels", not 1 <= config.levels <= 30),
        ("exponents", not 2 <= config.least <= config.greatest <= 40),
        ("leader table", not isinstance(table, bytes) and not (1 <= len(table) <= MOST_LEADERS and max(table) < count)),
        ("records", not 1 <= config.records <= (32768 if count > 256 else 131072)),
        ("parked", not 1 <= config.parked <= 16384),
    )
    return next((name for name, broken in faults if broken), None)


# ---- the compact form of version 2


class Lasts:
    """The last unit of each validator in a log of version 2; in version 1 there is none, and no compact form."""

    def __init__(self, version, validators):
        self.version, self.validators, self.units = version, validators, {}

    def note(self, vertex):
        """Takes a vertex that an entry holds, whatever its verdict."""
        if self.version == 2 and isinstance(vertex, SignedUnit) and vertex.unit.creator < self.validators:
            self.units[vertex.unit.creator] = vertex.unit

    def due(self, unit):
        """The last unit from which this one goes on, so that its compact form is due, or None."""
        last = self.units.get(unit.creator)
        if last is None or last.instance != unit.instance or len(last.panorama) != len(unit.panorama):
            return None
        return last if unit.own() == last.digest else None

    def spelled(self, vertex):
        """The one byte string of a vertex that comes next in the log."""
        last = self.due(vertex.unit) if isinstance(vertex, SignedUnit) else None
        if last is None:
            return spelled_vertex(vertex)
        unit = vertex.unit
        changes = [
            slot.to_bytes(4) + spelled_observation(seen)
            for slot, seen in enumerate(unit.panorama)
            if slot != unit.creator and seen != last.panorama[slot]
        ]
        head = (
            b"\x04"
            + unit.creator.to_bytes(4)
            + unit.number.to_bytes(8)
            + unit.time.to_bytes(8)
            + unit.exponent.to_bytes(1)
            + len(changes).to_bytes(4)
        )
        return head + b"".join(changes) + spelled_tail(unit.value, unit.endorsed) + vertex.signature

    def read(self, data):
        """The vertex that these bytes spell next in the log."""
        if self.version == 2 and data[:1] == b"\x04":
            return self.read_compact(data)
        vertex = read_full(data)
        if isinstance(vertex, SignedUnit) and self.due(vertex.unit) is not None:
            raise CodecError("bad tag", 0)
        return vertex

    def read_compact(self, data):
        cursor = Cursor(data)
        cursor.take(1)
        at, creator = cursor.at, cursor.number(4)
        last = self.units.get(creator)
        if last is None or creator >= len(last.panorama):
            raise CodecError("out of range", at)
        number, time, exponent = cursor.number(8), cursor.time(), cursor.number(1)
        panorama = read_changes(cursor, creator, last)
        value, endorsed = cursor.tail()
        signature = cursor.take(DIGEST)
        cursor.finish()
        unit = Unit(last.instance, creator, number, time, exponent, panorama, value, endorsed)
        return SignedUnit(with_digest(unit), signature)


def read_changes(cursor, creator, last):
    """The panorama that the changes of a compact form make of the last one's."""
    panorama, before = list(last.panorama), -1
    for _ in range(cursor.count(MOST_VALIDATORS)):
        at, slot = cursor.at, cursor.number(4)
        if slot <= before or slot >= len(panorama) or slot == creator:
            raise CodecError("out of range", at)
        at, seen = cursor.at, cursor.observation()
        if seen == panorama[slot]:
            raise CodecError("out of range", at)
        panorama[slot], before = seen, slot
    panorama[creator] = last.digest
    return tuple(panorama)


# ---- a log


class LogReader:
    """Reads a log as its bytes come: `feed` takes more of them, `entries` gives those that are whole by now.

    `config` is None until the head is there. `pending` is how many bytes of a cut entry (or head) stand at the end.
    """

    def __init__(self, name="LOG"):
        self.name, self.config, self.version, self.head = name, None, None, b""
        self.buffer, self.at, self.place, self.lasts = bytearray(), 0, 0, None

    @property
    def pending(self):
        return len(self.buffer)

    def feed(self, data):
        self.buffer += data

    def fail(self, text, place):
        raise InputError(self.name, text, place)

    def drop(self, size):
        """Takes so many bytes off the front."""
        taken = bytes(self.buffer[:size])
        del self.buffer[:size]
        self.at += size
        return taken

    def read_head(self):
        """Reads up to the configuration, where its bytes are all there. True where it has been read."""
        held = self.buffer
        if not MAGIC.startswith(bytes(held[:4])):
            self.fail("bad magic", 0)
        if len(held) > 4 and held[4] not in (1, 2):
            self.fail(f"version {held[4]}", 4)
        if len(held) < 9:
            return False
        length = int.from_bytes(held[5:9])
        if length > MOST_FRAME:
            self.fail("too long at 5", 5)
        if len(held) < 9 + length:
            return False
        try:
            config = read_config(bytes(held[9 : 9 + length]))
        except CodecError as error:
            self.fail(f"config {error}", 9 + error.place)
        fault = config_fault(config)
        if fault:
            self.fail(f"config {fault}", 9)
        self.config, self.version = config, held[4]
        self.head = self.drop(9 + length)
        self.lasts = Lasts(self.version, len(self.config.weights))
        return True

    def entry_length(self):
        """The whole length of the entry at the front, or None where its head is cut."""
        held = self.buffer
        if len(held) < 6:
            return None
        if held[0] != 1:
            self.fail(f"bad event at {self.at}", self.at)
        if held[1] > 1:
            self.fail(f"bad verdict at {self.at}", self.at)
        length = int.from_bytes(held[2:6])
        if length > MOST_FRAME:
            self.fail(f"too long at {self.at}", self.at)
        return 6 + length

    def entries(self):
        """Each whole entry in turn; afterwards `pending` bytes of a cut one are left."""
        if self.config is None and not self.read_head():
            return
        length = self.entry_length()
        while length is not None and len(self.buffer) >= length:
            offset, data = self.at, bytes(self.buffer[:length])
            try:
                vertex = self.lasts.read(data[6:])
            except CodecError as error:
                self.fail(f"bad vertex at {offset}: {error}", offset)
            self.drop(length)
            self.lasts.note(vertex)
            self.place += 1
            yield Entry(self.place, offset, length, data[6], data[1] == 1, vertex)
            length = self.entry_length()

    def check_head(self):
        """Raises the error of a file that ends before its configuration is whole."""
        if self.config is None:
            size = len(self.buffer)
            if size < 4:
                self.fail("bad magic", 0)
            at = 4 if size < 5 else 5 if size < 9 else 9
            self.fail(f"torn at {at}", at)


def read_file(path, size=-1):
    """The bytes of a file, or so many of the first ones; or an InputError that says why there are none."""
    try:
        with open(path, "rb") as file:
            return file.read(size)
    except OSError as error:
        raise InputError(path, (error.strerror or str(error)).lower()) from error


def each_entry(path, reader=None, progress=None):
    """Each entry of a file in turn. `progress`, where given, is called with the bytes read and all bytes."""
    reader = reader or LogReader(path)
    data = read_file(path)
    for begin in range(0, len(data), CHUNK):
        reader.feed(data[begin : begin + CHUNK])
        yield from reader.entries()
        if progress:
            progress(min(begin + CHUNK, len(data)), len(data))
    reader.check_head()


def read_head(path):
    """The configuration of a log, of which nothing else is read."""
    reader = LogReader(path)
    reader.feed(read_file(path, 9 + MOST_FRAME))
    if not reader.read_head():
        reader.check_head()
    return reader.config


def read_as_far(path, progress=None):
    """A log up to its first fault, which the answer holds. The fault of a head is raised."""
    reader, entries, fault = LogReader(path), [], None
    try:
        entries.extend(each_entry(path, reader, progress))
    except InputError as error:
        fault = error
    if reader.config is None:
        raise fault
    torn = reader.at if reader.pending and fault is None else None
    return Log(reader.config, reader.version, entries, reader.at, torn, fault)


def read_log(path, progress=None):
    """A log whole. A cut last entry isn't an error: `torn` names its first byte. Any other fault is an InputError."""
    log = read_as_far(path, progress)
    if log.fault is not None:
        raise log.fault
    return log


def spelled_log(config, pairs, version=1):
    """The bytes of a log with these pairs of a verdict and a vertex as its entries."""
    said = spelled_config(config)
    lasts = Lasts(version, len(config.weights))
    parts = [MAGIC + bytes([version]) + len(said).to_bytes(4) + said]
    for verdict, vertex in pairs:
        data = lasts.spelled(vertex)
        parts.append(bytes([1, verdict]) + len(data).to_bytes(4) + data)
        lasts.note(vertex)
    return b"".join(parts)


# ---- keys and signatures of a test network


def read_keys(path, count=None):
    """The keys of a file, one a line: 64 lower-case hexadecimal digits and a line feed.

    With `count` there have to be that many. A fault names the first byte that can't be there, or the length of a text
    that is too short.
    """
    text = read_file(path)
    for at, byte in enumerate(text):
        wanted = b"\n" if at % 65 == 64 else b"0123456789abcdef"
        if byte not in wanted or (count is not None and at >= 65 * count):
            raise InputError(path, f"keys at {at}", at)
    if len(text) % 65 or (count is not None and len(text) < 65 * count):
        raise InputError(path, f"keys at {len(text)}", len(text))
    return StandIn(bytes.fromhex(text[begin : begin + 64].decode("ascii")) for begin in range(0, len(text), 65))


def unit_signature(key, unit):
    return digest_of(key + unit.digest)


def endorsement_signature(key, unit, endorser):
    return digest_of(key + digest_of(b"endorse" + unit + endorser.to_bytes(4)))


class StandIn(list):
    """The keys of a test network, by validator. Their signatures are digests, so who has the keys can sign for all."""

    def is_right(self, validator, digest, slot, is_endorsement):
        """Whether the 32 bytes in the slot are the validator's signature."""
        if validator >= len(self):
            return False
        if is_endorsement:
            return slot == endorsement_signature(self[validator], digest, validator)
        return slot == digest_of(self[validator] + digest)


def is_signed_unit(signed, keys):
    """Whether a unit's signature is its creator's, who has to be a validator."""
    return keys.is_right(signed.unit.creator, signed.unit.digest, signed.signature, False)


def is_signed(vertex, keys):
    """The verdict that the keys give a vertex: each signer is a validator, and each signature is the signer's."""
    if isinstance(vertex, SignedUnit):
        return is_signed_unit(vertex, keys)
    if isinstance(vertex, Evidence):
        return is_signed_unit(vertex.left, keys) and is_signed_unit(vertex.right, keys)
    return keys.is_right(vertex.endorser, vertex.unit, vertex.signature, True)


# ---- how things are printed


def short(digest):
    """The first eight hexadecimal digits of a digest."""
    return digest.hex()[:8]


def value_text(value):
    """A value as text where it is printable ASCII or UTF-8, else in hexadecimal digits with 0x before them."""
    if value is None:
        return "-"
    try:
        text = value.decode("utf-8")
    except UnicodeDecodeError:
        return "0x" + value.hex()
    return f'"{text}"' if text.isprintable() else "0x" + value.hex()
