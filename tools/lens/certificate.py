"""A light certificate, read as docs/FORMATS.md has it: its configuration, the block, and the vertices."""
from dataclasses import dataclass

from lens.log import (
    MOST_FRAME,
    CodecError,
    Config,
    Cursor,
    Entry,
    InputError,
    config_fault,
    read_config,
    read_file,
    read_full,
)

MAGIC = b"HWCT"
MOST_VERTICES = 131072


@dataclass(slots=True)
class Certificate:
    """`entries` are the vertices as entries of a log whose signatures are all good: the certificate has no verdicts.

    `fault` is the first limit that the configuration breaks, or None.
    """

    config: Config
    block: bytes
    entries: list
    size: int
    fault: str | None = None


def is_certificate(path):
    """Whether a file begins as a certificate does."""
    return read_file(path, len(MAGIC)) == MAGIC


class Reader(Cursor):
    """The bytes of a certificate. What is cut is torn where its field begins."""

    def __init__(self, name, data):
        super().__init__(data)
        self.name = name

    def fail(self, text, place):
        raise InputError(self.name, f"{text} at {place}", place)

    def take(self, size):
        if len(self.data) - self.at < size:
            self.fail("torn", self.at)
        return super().take(size)

    def length(self, most):
        """A length, of which there is a greatest."""
        at, length = self.at, self.number(4)
        if length > most:
            self.fail("too long", at)
        return length

    def config(self):
        data = self.take(self.length(MOST_FRAME))
        try:
            return read_config(data)
        except CodecError as error:
            raise InputError(self.name, f"config {error}") from error

    def entry(self, place):
        at, data = self.at, self.take(self.length(MOST_FRAME))
        try:
            return Entry(place, at, 4 + len(data), data[0] if data else 0, True, read_full(data))
        except CodecError as error:
            raise InputError(self.name, f"bad vertex at {at}: {error}", at) from error


def read_certificate(path):
    """A certificate whole, or an InputError in the program's words."""
    reader = Reader(path, read_file(path))
    if reader.data[: len(MAGIC)] != MAGIC:
        raise InputError(path, "bad magic", 0)
    reader.at = len(MAGIC)
    version = reader.number(1)
    if version != 1:
        raise InputError(path, f"version {version}", len(MAGIC))
    config, block = reader.config(), reader.take(32)
    entries = [reader.entry(place + 1) for place in range(reader.length(MOST_VERTICES))]
    if reader.at != len(reader.data):
        reader.fail("trailing", reader.at)
    return Certificate(config, block, entries, len(reader.data), config_fault(config))
