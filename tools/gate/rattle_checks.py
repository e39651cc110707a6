"""Checks of a copy of a crate with some of its texts changed, and what they say.

The command is the toolchain's own, `rattle check`, with the words that its help gives. It runs over what earlier
checks of the crate kept, and over the built libraries below it, as `rt lib` leaves them in each crate's out/rlib. With
`--only` it checks only some functions of the crate, and those that they call."""

import contextlib
import fcntl
import os
import re
import shutil
import subprocess
import tempfile
from dataclasses import dataclass, field

from gate.rattle_sources import PARTS, files_of

# What the prover says where it meets a limit of its own, on any machine: no verdict, and the same at each try.
LIMIT = re.compile(
    r"antt ran out of (stack|the (steps|memory) that the check of one declaration may (take|use))"
    r"|(outgrew the memory limit|stopped at the step limit) \("
)
LINE = re.compile(r"fn (\S+): (not proved|no proof|could not tell|proved|no holes|depends on a hole)(.*)")
# Where the lines about a function name a goal that is open.
OPEN = re.compile(r"note: src/.* it is not proved .*\(`([\w-]+)`\)")
UNMET = re.compile(r"(?:\./)?proofs/(\S+)/\w+\.antt:\d+:\d+: error: `([^`\s]+)`: (?!.*has no `)")
# The last line of a check in which not all that it was asked for is proved, and what it says of a name that fits no
# function, or several.
NOT_PROVED = re.compile(r"logic=not-proved|only=\d+ (proved|holes)=\d+\s*$")
# What a check that goes past holes says of a function that is proved, as far as what it calls is.
PROVED = ("proved", "no holes", "depends on a hole")
UNKNOWN = re.compile(r"rattle: error: (?:`[^`]*` has no function|several functions are named) `([^`]+)`")
UNREADABLE = re.compile(r"is not in scope|has no field|is no name|operand is missing|expected the end|cannot continue")


class CheckError(Exception):
    """A check that could not be begun, and what to do about it."""


@dataclass
class Answer:
    """What a check said.

    Where not all that it was asked for is proved: the functions that are proved, those that are refused for themselves,
    with an open goal each, those that only rest on others, those on which it could not tell, and where the front end
    stopped if it came to no verdict, or the function that it was asked for and could not find."""

    is_proved: bool = False
    is_verdict: bool = False
    is_uncompiled: bool = False
    unknown: str = ""
    proved: set = field(default_factory=set)
    refused: dict = field(default_factory=dict)
    resting: set = field(default_factory=set)
    undecided: set = field(default_factory=set)
    is_at_limit: bool = False
    error_lines: set = field(default_factory=set)
    complaint: str = ""
    unread: str = ""
    seconds: float = 0.0


def answer_of(status, lines, changed=()):
    """Reads what a check printed; `changed` are the files that it read with other texts."""
    answer = Answer(is_proved=status == 0)
    rows = [row for row in lines if row.strip()]
    answer.is_verdict = status == 0 or (status == 1 and bool(rows) and bool(NOT_PROVED.match(rows[-1])))
    answer.unknown = next((said[1] for said in map(UNKNOWN.match, rows) if said), "") if status == 2 else ""
    answer.is_at_limit = status == 3 and any(LIMIT.search(row) for row in rows)
    is_cut = status == 1 and not answer.is_verdict
    answer.is_uncompiled = is_cut and any(re.search(r"\berror\[[\w-]+\]", row) for row in rows)
    about, unmet = [], {}
    for row in rows:
        said, goal = LINE.match(row), UNMET.match(row)
        if goal:
            unmet.setdefault(goal[1].replace("/", "::"), goal[2])
        if not said:
            about.append(row)
            note_error(answer, row, changed)
            continue
        name, kind, rest = said.groups()
        if kind == "no proof" and rest.startswith(": it calls"):
            answer.resting.add(name)
        elif kind == "could not tell":
            answer.undecided.add(name)
        elif kind in PROVED:
            answer.proved.add(name)
        else:
            answer.refused[name] = open_goal([*about, rest]) or unmet.get(name.partition("::")[2], "")
        about = []
    if not answer.is_verdict:
        answer.complaint = complaint_of(status, rows)
    return answer


def note_error(answer, row, changed):
    """Notes where the front end stopped, or that a text could not be read."""
    at = re.search(r"((?:src|specs|proofs)/\S+?):(\d+):\d+", row)
    if at:
        answer.error_lines.add((at[1], int(at[2])))
    said = re.match(r"(?:note: )?(?:\./)?(\S+?):\d+:\d+: error: (?:`[^`]*`: )?(.*)", row)
    if said and (said[1] in changed or said[1].startswith(("src/", "specs/"))):
        has_name = re.search(r"error: `[^`]*`: ", row)
        if not has_name or UNREADABLE.search(re.sub(r"`[^`]*`", "", said[2])):
            answer.unread = answer.unread or row


def open_goal(rows):
    """Returns the first goal that the lines right above a function's say is open, or an empty text."""
    for row in rows:
        goal = OPEN.match(row) or re.search(r"did not prove `([^`\s]+)`", row)
        if goal and not row.startswith("help:"):
            return goal[1]
    return ""


def complaint_of(status, rows):
    """Returns in one line why a check gave no verdict."""
    if status < 0:
        return f"its check was killed by signal {-status}, most likely for memory: run this again"
    named = [row for row in rows if re.search(r"\berror(\[[\w-]+\])?:", row)] or rows[-1:]
    return (named[0] if named else f"its check ended with status {status} and said nothing")[:200]


class Toolchain:
    """The kit's programs and libraries, found by `rt doc`."""

    def __init__(self):
        rt = shutil.which("rt")
        if not rt:
            raise CheckError("there is no rt on the path, so nothing can be tried here")
        self.rt = rt
        said = subprocess.run([rt, "doc"], capture_output=True, text=True, check=True).stdout
        self.kit = os.path.dirname(said.strip())

    def line(self):
        return subprocess.run([self.rt, "version"], capture_output=True, text=True, check=True).stdout.strip()

    def words(self, crate, kept, jobs, only=(), with_holes=False):
        """Returns the command that checks a crate in the folder that it is run in, over what `kept` holds: all of it,
        or these functions and those that they call, and past holes if there are some."""
        rlibs = f"{self.kit}/rlibs"
        root = "src/main.rt" if crate.is_program() else "src/lib.rt"
        words = [f"{self.kit}/bin/rattle", "check", "--crate-name", crate.name, root]
        for name in ["std", *crate.of_kit]:
            words += ["--extern", f"{name}={rlibs}/{name}.rlib"]
        words += ["-L", f"dependency={rlibs}"]
        for it in crate.libraries:
            words += ["--extern", f"{it.name}={rlib_of(it)}"]
        for it in crate.below():
            words += ["-L", f"dependency={os.path.dirname(rlib_of(it))}"]
        words += ["--antt-project", f"{self.kit}/rattle/logic/antt-project.json"]
        words += ["--logic-built", f"{self.kit}/logic_built"]
        for it in only:
            words += ["--only", it]
        words += ["--allow-holes"] if with_holes else []
        return [*words, "--jobs", str(jobs), "--incremental", kept]

    def renew(self, crate):
        """Has `rt lib` build the libraries below that are older than their sources; it leaves others as they are."""
        older = [it for it in crate.below() if is_older(it)]
        for it in older:
            made = subprocess.run([self.rt, "lib"], cwd=it.folder, capture_output=True, text=True)
            if made.returncode:
                raise CheckError(f"the library {it.name} did not build: run rt check in crates/{it.name}")


def rlib_of(library):
    return f"{library.folder}/out/rlib/{library.name}.rlib"


def missing_below(crate):
    """Returns the libraries below a crate that are not built."""
    return [it.name for it in crate.below() if not os.path.isfile(f"{rlib_of(it)}/format")]


def is_older(library):
    """Returns whether a file of the library was written after it was built."""
    stamp = f"{library.folder}/out/rlib/stamp"
    if not os.path.isfile(stamp):
        return True
    built = os.path.getmtime(stamp)
    return any(os.path.getmtime(f"{library.folder}/{it}") > built for it in files_of(library.folder))


def linked(folder, to):
    """Copies kept work, what was proved by links: a check replaces such a file, and never writes into one."""

    def copy(one, other):
        if one.endswith(".oantt"):
            try:
                return os.link(one, other)
            except OSError:
                pass
        return shutil.copy2(one, other)

    shutil.copytree(folder, to, copy_function=copy)


@contextlib.contextmanager
def alone_in(folder):
    """Waits until no rt works in a crate's folder, and keeps others out meanwhile, by the lock that rt takes too."""
    held = os.open(folder, os.O_RDONLY)
    try:
        with contextlib.suppress(OSError):
            fcntl.flock(held, fcntl.LOCK_EX)
        yield
    finally:
        os.close(held)


class Bench:
    """Where the pages of one crate are tried: a room in the crate's out/, with the work that its checks keep."""

    def __init__(self, crate, toolchain, jobs=1):
        self.crate, self.toolchain, self.jobs, self.checks, self.seconds = crate, toolchain, jobs, 0, 0.0

    def __enter__(self):
        os.makedirs(f"{self.crate.folder}/out", exist_ok=True)
        with alone_in(self.crate.folder):
            return self.begin()

    def begin(self):
        self.room = tempfile.mkdtemp(prefix="wrong-bodies-", dir=f"{self.crate.folder}/out")
        self.kept, self.before = f"{self.room}/kept", f"{self.crate.folder}/out/incremental"
        self.has_begun = os.path.isdir(self.before)
        if self.has_begun:
            linked(self.before, self.kept)
        else:
            os.mkdir(self.kept)
        return self

    def __exit__(self, *_):
        with alone_in(self.crate.folder):
            # (where no check of the crate itself kept anything yet, its next one can begin with this)
            if not self.has_begun and not os.path.lexists(self.before) and os.listdir(self.kept):
                os.rename(self.kept, self.before)
            shutil.rmtree(self.room, ignore_errors=True)

    def check(self, texts, only=(), gone=()):
        """Checks the crate, or only these functions of it, with these texts in place of its own, and without the
        folders that are gone. Where some are, their functions have holes."""
        copy = tempfile.mkdtemp(prefix="copy-", dir=self.room)
        try:
            for part in PARTS:
                if os.path.isdir(f"{self.crate.folder}/{part}"):
                    shutil.copytree(f"{self.crate.folder}/{part}", f"{copy}/{part}")
            for it in gone:
                shutil.rmtree(f"{copy}/{it}", ignore_errors=True)
            for path, text in texts.items():
                os.makedirs(os.path.dirname(f"{copy}/{path}"), exist_ok=True)
                with open(f"{copy}/{path}", "w", encoding="utf-8") as it:
                    it.write(text)
            words = self.toolchain.words(self.crate, self.kept, self.jobs, only, bool(gone))
            status, lines, seconds = run(words, copy)
        finally:
            shutil.rmtree(copy, ignore_errors=True)
        self.checks, self.seconds = self.checks + 1, self.seconds + seconds
        answer = answer_of(status, lines, [it for it in texts if os.path.dirname(it) not in gone])
        answer.seconds = seconds
        return answer


class Running:
    """The checks that run now, for whoever ends them: then none begins any more."""

    checks, is_over = set(), False


def run(words, folder):
    """Runs a command in a folder, and returns its status, its lines and the processor seconds that it took."""
    if Running.is_over:
        raise CheckError("this run was ended")
    how = {"stdin": subprocess.DEVNULL, "stdout": subprocess.PIPE, "stderr": subprocess.STDOUT}
    ran = subprocess.Popen(words, cwd=folder, text=True, errors="replace", **how)
    Running.checks.add(ran)
    try:
        lines = ran.stdout.read().split("\n")
        _, status, used = os.wait4(ran.pid, 0)
        ran.returncode = os.waitstatus_to_exitcode(status)
        return ran.returncode, lines, used.ru_utime + used.ru_stime
    finally:
        Running.checks.discard(ran)
        ran.stdout.close()


def end_all():
    """Ends the checks that still run, and has none begin any more."""
    Running.is_over = True
    for it in list(Running.checks):
        it.kill()
