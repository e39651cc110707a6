"""Runs the proved program, and reads what it says. Every judgement of the lens comes from here.

The program is found by `--program PATH`, then by the environment variable HIGHWAY, then as crates/highway/out/highway
in this repository. It runs in an empty folder of its own, since a consumer of `replay` writes a file.
"""
import os
import pathlib
import subprocess
import tempfile
from dataclasses import dataclass, field

from lens.log import InputError

BUILT = pathlib.Path(__file__).resolve().parents[2] / "crates" / "highway" / "out" / "highway"


class ProgramError(Exception):
    """There is no program, or it ended with another status than it should. `text` is its last line, if it had one."""

    def __init__(self, message, text=None):
        super().__init__(message)
        self.text = text


@dataclass(frozen=True, slots=True)
class Final:
    """A final block by the program. `committee` has each member's starts by level, where `explain` printed them."""

    height: int
    digest: bytes
    level: int
    quorum: int
    at: int
    committee: dict = field(default_factory=dict)


@dataclass(slots=True)
class Report:
    """What `replay` says of a log. `lines` are its three first lines, which an own reading is compared with."""

    lines: list
    counts: dict
    faulty: list
    fork: bytes | None
    finals: list
    exceeded: int | None = None


@dataclass(slots=True)
class Verdict:
    """What `audit` says. `agree` is the shared length, or None in a conflict; culprits: (validator, digest, digest)."""

    text: str
    agree: int | None = None
    height: int | None = None
    left: bytes | None = None
    right: bytes | None = None
    culprits: list = field(default_factory=list)
    weight: int = 0
    threshold: int = 0


def named_program(given=None):
    """The path at which the program has to be, and whether somebody named it."""
    named = given or os.environ.get("HIGHWAY")
    return (pathlib.Path(named), True) if named else (BUILT, False)


def has_program(given=None):
    """Whether a program was named, or the built one is there."""
    path, named = named_program(given)
    return named or path.is_file()


def need_program(given=None):
    """The program, or the error that says where it was looked for."""
    path, _ = named_program(given)
    if not path.is_file() or not os.access(path, os.X_OK):
        raise ProgramError(f"no program at {path}: name one by --program or HIGHWAY; tools/look.sh needs no proof")
    return Program(path.resolve())


class Program:
    """The built program."""

    def __init__(self, path):
        self.path = path

    def call(self, *words):
        """The status and the text that the program ends with on these words."""
        with tempfile.TemporaryDirectory(prefix="lens-") as room:
            try:
                ran = subprocess.run([self.path, *words], cwd=room, capture_output=True, check=False)
            except OSError as error:
                raise ProgramError(f"{self.path}: {error.strerror}") from error
        return ran.returncode, ran.stdout.decode("utf-8", "replace")

    def said(self, names, *words, good=(0,)):
        """The text of a run that ends with a good status. `names` are what the files are called in an error's text."""
        status, text = self.call(*words)
        if status in good:
            return text
        last = text.strip().splitlines()[-1:] or [f"status {status} without a line"]
        for word, name in names.items():
            if last[0].startswith(f"input {word}: "):
                raise InputError(name, last[0][len(f"input {word}: ") :])
        raise ProgramError(f"{self.path.name} {words[0]} ended with status {status}: {last[0]}", last[0])

    def replay(self, log):
        """The report on a log's node."""
        with log as path:
            return read_report(self.said({path: log.name}, "replay", path))

    def explain(self, log):
        """Each final block of a log's node, in order, with its committee."""
        with log as path:
            text = self.said({path: log.name}, "explain", path)
        return [read_final(line) for line in text.splitlines() if line.startswith("final ") and line != "final -"]

    def audit(self, left, right):
        """Whether two logs agree, or their conflict."""
        with left as one, right as other:
            return read_verdict(self.said({one: left.name, other: right.name}, "audit", one, other, good=(0, 3)))


class LogFile:
    """The first bytes of a log: without its torn end, what a node appends meanwhile, or its later entries."""

    def __init__(self, path, size=None):
        self.path, self.size, self.name, self.copy = pathlib.Path(path), size, str(path), None

    def __enter__(self):
        """The path of a copy of these bytes."""
        try:
            with open(self.path, "rb") as file:
                data = file.read(-1 if self.size is None else self.size)
        except OSError as error:
            raise InputError(self.name, (error.strerror or str(error)).lower()) from error
        with tempfile.NamedTemporaryFile(prefix="lens-", suffix=".hwlg", delete=False) as copy:
            copy.write(data)
        self.copy = copy.name
        return self.copy

    def __exit__(self, *_):
        os.unlink(self.copy)


def before_limit(path, reading, size):
    """So many bytes of a log, or those before the entry at which the program stops since a limit is met."""
    return LogFile(path, reading.limit_entry.offset if reading.limit_entry else size)


def log_file(path, log, place=None):
    """The file of a log that was read: its whole entries, or those up to this place."""
    if place is not None and place < len(log.entries):
        return LogFile(path, log.entries[place].offset)
    return LogFile(path, log.size)


def read_final(line):
    """`final H HASH level K quorum Q at J`, perhaps with `committee M M`."""
    words = line.split()
    committee = {}
    for word in words[10:]:
        who, starts = word.split(":")
        committee[int(who)] = tuple(map(int, starts.split(",")))
    return Final(int(words[1]), bytes.fromhex(words[2]), int(words[4]), int(words[6]), int(words[8]), committee)


def read_report(text):
    lines = text.splitlines()
    words = lines[0].split()
    counts = {name: int(count) for name, count in zip(words[::2], words[1::2])}
    faulty = [] if lines[1] == "faulty -" else [int(word) for word in lines[1].split()[1:]]
    fork = None if lines[2] == "fork -" else bytes.fromhex(lines[2].split()[1])
    finals = [read_final(line) for line in lines[3:] if line.startswith("final ")]
    exceeded = [int(line.split()[1]) for line in lines[3:] if line.startswith("exceeded ")]
    return Report(lines[:3], counts, faulty, fork, finals, exceeded[0] if exceeded else None)


def read_verdict(text):
    lines = [line.split() for line in text.splitlines()]
    if lines[0][0] == "agree":
        return Verdict(text, agree=int(lines[0][1]))
    verdict = Verdict(text, None, int(lines[0][2]), bytes.fromhex(lines[0][4]), bytes.fromhex(lines[0][6]))
    for words in lines:
        if words[0] == "culprit":
            verdict.culprits.append((int(words[1]), bytes.fromhex(words[2]), bytes.fromhex(words[3])))
    verdict.weight, verdict.threshold = int(lines[-1][1]), int(lines[-1][3])
    return verdict


def differences(reading, report):
    """The lines in which an own reading differs from the program's `replay`."""
    pairs = zip(reading.totals(), report.lines)
    return [f"the program says: {said}\nthe lens reads:   {own}" for own, said in pairs if own != said]
