"""A log that was read, and what the proved program says of it. Pictures and pages are made of this."""
from dataclasses import dataclass, field, replace

from lens.graph import read_journal
from lens.log import Log, read_log
from lens.program import differences, log_file
from lens.show import Progress

DIFFER = "THE TWO READINGS DIFFER."
FAULTY_MOST = 16


@dataclass(slots=True)
class Seen:
    """A log, the own reading of it, and the program's judgements: its report, final blocks with committees, the faulty.

    `culprits` are the units by which an audit with another log shows a culprit; `conflict` are the two blocks of it.
    """

    name: str
    log: Log
    reading: object
    report: object
    finals: list
    faulty: list
    notes: list = field(default_factory=list)
    culprits: dict = field(default_factory=dict)
    conflict: tuple = ()

    def entry_of(self, final):
        """The place of the entry with which a block became final."""
        return self.reading.journal[final.at - 1].place

    def faulty_since(self, who):
        """The entry since which a validator is faulty whom the program calls so, or 0."""
        since = self.reading.faulty_since.get(who)
        return (since.place if since else self.log.entries[-1].place) if who in self.faulty else 0


def limited(log, reading):
    """The entries before the one at which the program stops, where the log meets a limit of its configuration."""
    at = int(reading.limit.rsplit(" ", 1)[1])
    return replace(log, entries=[entry for entry in log.entries if entry.offset < at], size=at)


def look(path, program, arguments):
    """Reads a log, and asks the program about it."""
    progress = Progress(arguments, f"{path}: read")
    log, notes = read_log(path, progress), []
    if log.torn is not None:
        notes.append(f"the file is torn at byte {log.torn}: what stands before it is shown")
    reading = read_journal(log, progress)
    if reading.limit:
        notes.append(f"{reading.limit}: the program stops there, and what stands before it is shown")
        log = limited(log, reading)
        reading = read_journal(log, progress)
    progress.finish()
    file = log_file(path, log)
    report, finals = program.replay(file), program.explain(file)
    notes += [f"{DIFFER} {said}" for said in differences(reading, report)]
    seen = Seen(str(path), log, reading, report, finals, report.faulty, notes)
    seen.notes += check_moments(path, seen, program)
    return seen


def check_moments(path, seen, program):
    """Asks the program about the log before and with the entry that made a validator faulty by the own reading."""
    notes = []
    for who in seen.faulty[:FAULTY_MOST]:
        entry = seen.reading.faulty_since.get(who)
        if entry is None:
            continue
        before = program.replay(log_file(path, seen.log, entry.place - 1)).faulty
        after = program.replay(log_file(path, seen.log, entry.place)).faulty
        if who in before or who not in after:
            notes.append(f"{DIFFER} validator {who} isn't faulty from entry {entry.place} on")
    return notes
