#!/usr/bin/env python3
"""Measures how long a built program takes to replay logs that are hard on it, alone or beside another one.

    python3 tools/measure/replay.py PROGRAM [--beside OTHER [--without NAME]] [--version2] [--instructions] [--runs 15] [--logs FOLDER]
                                    [NAME ..]
    python3 tools/measure/replay.py PROGRAM --growth [NAME ..]
    python3 tools/measure/replay.py --list

The logs are those of `--list`, or of them only the named ones; they are made by tools/measure/worst_logs.py and kept in FOLDER. Each run is
`PROGRAM replay LOG` in an empty folder. What is told are processor seconds (user and system), medians; beside another program the two run
in turn, and the ratio is the median of the ratios of two runs that followed each other. With --without OTHER is run a third time in each
turn, without that variable of the environment, in columns of its own. With --version2 each log is replayed in version 2 too, in turn with
version 1. With --instructions one more run of each program is counted by `valgrind --tool=callgrind`. With --growth each kind is replayed
at several sizes, and what is told of each is how much more it takes than the size before, beside how much more there are of bytes: the
time of no kind should grow faster than its bytes times their logarithm.

The status is 0, 1 where a kind grows faster, and 2 where the words aren't understood or a replay ends with another status than 0.
It stands outside the gate and proves nothing.
"""
import argparse
import dataclasses
import math
import os
import pathlib
import re
import statistics
import subprocess
import sys
import tempfile

sys.path.insert(0, str(pathlib.Path(__file__).resolve().parents[1]))

from measure import worst_logs  # noqa: E402

LOGS = {
    "even": "rounds --validators 10 --rounds 2000",
    "wide": "rounds --validators 100 --rounds 80",
    "late": "rounds --validators 100 --rounds 80 --late 0.1",
    "stall": "rounds --validators 100 --rounds 80 --silent 40",
    "wide256": "rounds --validators 256 --rounds 31",
    "marked10": "rounds --validators 100 --rounds 40 --equivocators 10",
    "marked20": "rounds --validators 100 --rounds 40 --equivocators 20",
    "marked60": "rounds --validators 100 --rounds 40 --equivocators 60",
    "heal": "rounds --validators 10 --rounds 1602 --silent 4 --heal 1600",
    "solo": "solo --validators 1 --units 4000 --order reversed",
    "fan": "fan --validators 10 --units 16000",
    "needs": "needs --validators 256 --units 1000",
    "reversed": "rounds --validators 10 --rounds 400 --order reversed",
    "shuffled": "rounds --validators 10 --rounds 400 --order shuffled",
    "endorsements": "endorsements --validators 100 --units 32000",
}

GROWTH = {
    "even": ("rounds --validators 10 --rounds {}", (400, 1600, 6400)),
    "wide": ("rounds --validators 100 --rounds {}", (5, 20, 80)),
    "late": ("rounds --validators 100 --late 0.1 --rounds {}", (5, 20, 80)),
    "stall": ("rounds --validators 100 --silent 40 --rounds {}", (5, 20, 80)),
    "heal": ("rounds --validators 10 --silent 4 --rounds {0} --heal {0}", (400, 1600, 6400)),
    "marked": ("rounds --validators 100 --equivocators 20 --rounds {}", (5, 20, 80)),
    "lanes": ("rounds --validators 50 --second-lanes 50 --rounds {}", (10, 40, 160)),
    "reversed": ("rounds --validators 10 --order reversed --rounds {}", (50, 200, 800)),
    "shuffled": ("rounds --validators 10 --order shuffled --rounds {}", (50, 200, 800)),
    "lane": ("lane --validators 10 --order reversed --units {}", (1000, 4000, 16000)),
    "solo": ("solo --validators 1 --order reversed --units {}", (1000, 4000, 16000)),
    "fan": ("fan --validators 10 --units {}", (1000, 4000, 16000)),
    "needs": ("needs --validators 256 --units {}", (250, 1000, 4000)),
    "missing": ("missing --validators 256 --units {}", (250, 1000, 4000)),
    "endorsements": ("endorsements --validators 100 --units {}", (2000, 8000, 32000)),
    "equivocations": ("equivocations --validators 10 --units {}", (2000, 8000, 32000)),
    "stale": ("stale --validators 100 --rounds {}", (100, 400, 1600)),
    "swing": ("swing --validators 10 --rounds {}", (500, 2000, 8000)),
    "falls": ("falls --validators 64 --rounds {}", (3, 12, 48)),
    "falls by validators": ("falls --rounds 3 --validators {}", (32, 128, 512)),
    "cascade": ("cascade --validators 64 --units {}", (250, 1000, 4000)),
    "cascade by validators": ("cascade --units 250 --validators {}", (32, 128, 512)),
}


class Failed(Exception):
    """A replay didn't end as it should, or a log couldn't be made."""


@dataclasses.dataclass(frozen=True)
class Log:
    """A log in a file, and how many bytes it has."""

    path: pathlib.Path
    size: int


def made(folder, words):
    """The log of these words of tools/measure/worst_logs.py, made where it isn't in the folder yet."""
    kind, *rest = words.split()
    path = folder / (re.sub(r"[^a-z0-9.]+", "-", words) + ".hwlg")
    if not path.exists():
        unfinished = path.with_suffix(".part")
        try:
            folder.mkdir(parents=True, exist_ok=True)
            worst_logs.write(worst_logs.options_of([kind, str(unfinished), *rest]))
            unfinished.rename(path)
        except OSError as error:
            raise Failed(f"{path}: {error.strerror}") from error
    return Log(path, path.stat().st_size)


def used(program, *words, environment=None):
    """What a run of a program used of the machine, as `os.wait4` has it, with this environment in place of our own."""
    command = [program, *map(str, words)]
    with tempfile.TemporaryDirectory() as folder:
        running = subprocess.Popen(
            command, cwd=folder, env=environment, stdout=subprocess.DEVNULL, stderr=subprocess.PIPE
        )
        said = running.stderr.read()
        _, ended, usage = os.wait4(running.pid, 0)
        running.returncode = os.waitstatus_to_exitcode(ended)
        running.stderr.close()
    if running.returncode:
        told = " ".join(map(str, words))
        raise Failed(f"{program} {told}: status {running.returncode}: {said.decode(errors='replace').strip()}")
    return usage


def seconds_of(program, *words, environment=None):
    """The processor seconds of a run, user and system."""
    usage = used(program, *words, environment=environment)
    return usage.ru_utime + usage.ru_stime


def instructions_of(program, *words):
    """The instructions of a run."""
    with tempfile.TemporaryDirectory() as folder:
        counter = ["valgrind", "--tool=callgrind", "--callgrind-out-file=counts"]
        ran = subprocess.run(
            [*counter, program, *map(str, words)], cwd=folder, capture_output=True, text=True, check=False
        )
    counted = re.search(r"Collected : (\d+)", ran.stderr)
    if ran.returncode or not counted:
        told = " ".join(map(str, words))
        raise Failed(f"{program} {told} under valgrind: status {ran.returncode}: {ran.stderr.strip()}")
    return int(counted[1])


def seconds(program, log, environment=None):
    """The processor seconds of one replay of the log."""
    return seconds_of(program, "replay", log.path, environment=environment)


def instructions(program, log):
    """The instructions of one replay of the log."""
    return instructions_of(program, "replay", log.path)


def environments(options):
    """With which environments the other program runs: our own, and perhaps the same without a variable."""
    lacking = {name: value for name, value in os.environ.items() if name != options.without}
    return [None, lacking] if options.without else [None]


def ratio(some, others):
    """The median of the ratios of seconds that followed each other."""
    return statistics.median(one / two if two else math.inf for one, two in zip(some, others))


def compared(options, log):
    """The medians of our seconds, and of the other program's and of their ratio with each environment, of so many runs in turn."""
    turns = []
    for _ in range(options.runs):
        ours = seconds(options.program, log)
        turns.append((ours, *[seconds(options.beside, log, environment) for environment in environments(options)]))
    ours, *others = zip(*turns)
    told = [statistics.median(ours)]
    for other in others:
        told += [statistics.median(other), ratio(ours, other)]
    return told


def newer(program, log):
    """The same log in version 2, made by the program where it isn't beside it yet."""
    path = log.path.with_suffix(".version2")
    if not path.exists():
        used(program, "migrate", log.path, path)
    return Log(path, path.stat().st_size)


def versions(options, log):
    """The medians of our seconds in version 2, and of their ratio to those in version 1, of so many runs in turn."""
    later = newer(options.program, log)
    ours, earlier = zip(
        *[(seconds(options.program, later), seconds(options.program, log)) for _ in range(options.runs)]
    )
    return [statistics.median(ours), ratio(ours, earlier)]


def row(options, name):
    """What is told of the log of that name."""
    log = made(options.logs, LOGS[name])
    told = [name, f"{log.size / 1e6:.1f}"]
    if options.beside:
        ours, *others = compared(options, log)
        told += [f"{ours:.3f}"]
        for other, ratio in zip(others[::2], others[1::2]):
            told += [f"{other:.3f}", f"{ratio:.2f}"]
    else:
        told.append(f"{statistics.median(seconds(options.program, log) for _ in range(options.runs)):.3f}")
    if options.version2:
        ours, beside = versions(options, log)
        told += [f"{ours:.3f}", f"{beside:.2f}"]
    if options.instructions:
        counts = [instructions(program, log) for program in (options.program, options.beside) if program]
        told += [f"{count / 1e6:.1f}" for count in counts]
        told += [f"{counts[0] / counts[1]:.2f}"] if options.beside else []
    return told


def head(options):
    """The names of the columns."""
    names = ["log", "MB", "s"]
    names += ["other, s", "ratio"] if options.beside else []
    names += [f"without {options.without}, s", "ratio"] if options.beside and options.without else []
    names += ["version 2, s", "beside version 1"] if options.version2 else []
    if options.instructions:
        names += ["M instructions"]
        names += ["other, M", "ratio"] if options.beside else []
    return names


def cost(options, log):
    """What a replay costs: instructions where they are asked for, else the median of the seconds."""
    if options.instructions:
        return instructions(options.program, log)
    return statistics.median(seconds(options.program, log) for _ in range(options.runs))


def growth(options, name):
    """What is told of each size of the kind, and whether it grows no faster than its bytes times their logarithm."""
    words, sizes = GROWTH[name]
    logs = [made(options.logs, words.format(size)) for size in sizes]
    costs = [cost(options, log) for log in logs]
    lines, slow = [], False
    for place, (size, log, taken) in enumerate(zip(sizes, logs, costs)):
        told = [
            name,
            str(size),
            f"{log.size / 1e6:.2f}",
            f"{taken / 1e6:.1f} M" if options.instructions else f"{taken:.3f} s",
        ]
        if place:
            before, least = logs[place - 1], costs[place - 1]
            bytes_more = log.size / before.size
            allowed = bytes_more * math.log(log.size) / math.log(before.size)
            more = taken / least if least else math.inf
            slow = slow or more > options.slack * allowed
            told += [f"{more:.2f}", f"{bytes_more:.2f}", f"{allowed:.2f}"]
        else:
            told += ["", "", ""]
        lines.append(told)
    return lines, slow


def table(rows):
    """The rows as a table of Markdown."""
    first, *rest = rows
    return ["| " + " | ".join(cells) + " |" for cells in [first, ["---"] * len(first), *rest]]


def parser_of_words():
    """What the words may be."""
    parser = argparse.ArgumentParser(prog="replay.py", description=__doc__.splitlines()[0])
    parser.add_argument("program", metavar="PROGRAM", nargs="?", help="the built program")
    parser.add_argument("names", metavar="NAME", nargs="*", help="which logs (all)")
    parser.add_argument("--beside", metavar="OTHER", help="another program, which is run in turn with it")
    parser.add_argument(
        "--without", metavar="NAME", help="run the other program without this variable of the environment too"
    )
    parser.add_argument("--runs", type=int, default=15, help="how many runs of each (15)")
    parser.add_argument("--logs", type=pathlib.Path, default=pathlib.Path("logs"), help="the folder of the logs (logs)")
    parser.add_argument("--version2", action="store_true", help="replay each log in version 2 too")
    parser.add_argument("--instructions", action="store_true", help="count instructions too, with valgrind")
    parser.add_argument("--growth", action="store_true", help="how each kind grows with its bytes")
    parser.add_argument(
        "--slack", type=float, default=1.15, help="how many times more than allowed still passes (1.15)"
    )
    parser.add_argument("--list", action="store_true", help="the names of the logs and kinds")
    return parser


def options_of(words):
    """What the words ask for. Words that aren't understood end the program with status 2."""
    parser = parser_of_words()
    options = parser.parse_intermixed_args(words)
    if options.list:
        return options
    if options.program is None:
        parser.error("the following arguments are required: PROGRAM")
    for program in (options.program, options.beside):
        if program and not os.access(program, os.X_OK):
            parser.error(f"{program} isn't a program")
    options.program = os.path.abspath(options.program)
    options.beside = options.beside and os.path.abspath(options.beside)
    options.logs = options.logs.absolute()
    known = GROWTH if options.growth else LOGS
    for name in options.names:
        if name not in known:
            parser.error(f"{name} isn't one of {', '.join(known)}")
    if options.runs < 1:
        parser.error("argument --runs: at least 1")
    if options.without and not options.beside:
        parser.error("argument --without: goes with --beside")
    options.names = options.names or list(known)
    return options


def measure(options):
    """Prints the table, a row as soon as it is measured. Answers whether a kind grows too fast."""
    names = ["kind", "size", "MB", "cost", "more", "bytes more", "allowed"] if options.growth else head(options)
    print("\n".join(table([names])), flush=True)
    too_fast = []
    for name in options.names:
        lines, slow = growth(options, name) if options.growth else ([row(options, name)], False)
        too_fast += [name] if slow else []
        for cells in lines:
            print("| " + " | ".join(cells) + " |", flush=True)
    if too_fast:
        print(f"faster than bytes times their logarithm: {', '.join(too_fast)}")
    return bool(too_fast)


def main(words):
    """Measures what the words ask for."""
    options = options_of(words)
    if options.list:
        for name, words_of_log in LOGS.items():
            print(f"{name}: {words_of_log}")
        for name, (words_of_log, sizes) in GROWTH.items():
            print(f"--growth {name}: {words_of_log.format('N')} for N of {', '.join(map(str, sizes))}")
        return 0
    try:
        return int(measure(options))
    except Failed as failed:
        print(failed, file=sys.stderr)
        return 2


if __name__ == "__main__":
    sys.exit(main(sys.argv[1:]))
