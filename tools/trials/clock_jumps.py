#!/usr/bin/env python3
"""Sets the clock of a validator back and ahead while it runs, and says whether it does what docs/OPERATING.md tells.

    clock_jumps.py PROGRAM [--seconds 3]

A hub and three validators run on this machine. The clock of validator 0 is right, five seconds back until it comes to
the time of the last unit, an hour back, a day ahead, and right again, and the validator is killed and started again in
between; tools/trials/clock_jumps.c, which a C compiler builds, is loaded into it for that. It has to make no unit before its
last unit's time, and units after it; the other two have to make units all the time. At the end all are stopped: each
log has final blocks, nobody is faulty, and each two agree.

The status is 0 where it is so, also where there is no C compiler and so nothing was tried; else the folders of the
nodes stay. It stands outside the gate and proves nothing.
"""

import argparse
import os
import shutil
import subprocess
import sys
import tempfile
import time
from dataclasses import dataclass
from pathlib import Path

sys.path.insert(0, str(Path(__file__).resolve().parents[1]))

from trials.three_validators import agree, network, steady_port, stop  # noqa: E402

HERE = Path(__file__).resolve().parent
HOUR, DAY = 3_600_000, 86_400_000
# How long after a jump what is made may still be of the time before it, in seconds.
GRACE = 0.5


@dataclass(frozen=True)
class Step:
    """The clock of validator 0 from now on, in milliseconds ahead, and whether it has to make units."""

    what: str
    ahead: int
    makes: bool
    is_started_again: bool = False


STEPS = (
    Step("the clock is right", 0, True),
    Step("five seconds back", -5000, False),
    Step("five seconds back, and they are over", -5000, True),
    Step("an hour back", -HOUR, False),
    Step("an hour back, started again", -HOUR, False, True),
    Step("right again", 0, True),
    Step("a day ahead", DAY, True),
    Step("right again after a day ahead", 0, False),
    Step("right again, started again", 0, False, True),
)


def library_in(folder):
    """What sets the clock of a node that it is loaded into, or None where there is no C compiler."""
    compiler, library = shutil.which("cc"), Path(folder) / "clock_jumps.so"
    if compiler is None:
        return None
    subprocess.run([compiler, "-O1", "-shared", "-fPIC", "-o", library, HERE / "clock_jumps.c"], check=True)
    return library


def set_clock(file, ahead):
    """Sets the clock at one stroke, so that nobody reads half a number."""
    new = file.with_suffix(".new")
    new.write_text(f"{ahead}\n", encoding="ascii")
    os.replace(new, file)


def made(node):
    """How many units a node has told that it made."""
    return sum(line.startswith("made ") for line in (node.folder / "out").read_text(encoding="utf-8").splitlines())


def await_units(validators, patience=20):
    """Waits until each validator has made a unit."""
    until = time.monotonic() + patience
    while not all(map(made, validators)):
        if time.monotonic() > until:
            sys.exit(f"not each validator made a unit in {patience} seconds")
        time.sleep(0.05)


def faults_of(step, counts):
    """What is wrong with the numbers of units that the three validators made in a step."""
    if step.makes != bool(counts[0]):
        yield f"{step.what}: validator 0 made {counts[0]} units"
    for number, count in enumerate(counts[1:], 1):
        if not count:
            yield f"{step.what}: validator {number} made no unit"


def take(step, nodes, clock, seconds):
    """Goes one step, and answers what the validators made in it."""
    hub, *validators = nodes
    set_clock(clock, step.ahead)
    if step.is_started_again:
        validators[0].kill()
        validators[0].start()
    time.sleep(GRACE)
    before = [made(node) for node in validators]
    until = time.monotonic() + seconds
    while time.monotonic() < until:
        time.sleep(0.05)
        hub.watch()
    counts = [made(node) - count for node, count in zip(validators, before)]
    print(f"{step.what:40} {' '.join(f'{count:4}' for count in counts)} units", flush=True)
    return counts


def tried(words, room):
    """Whether nothing is wrong in any step, nor with the logs afterwards."""
    library, clock = library_in(room), room / "clock"
    if library is None:
        print("there is no C compiler, so nothing was tried")
        return True
    nodes, faults = network(room, [str(words.program)], steady_port()), []
    set_clock(clock, 0)
    nodes[1].environment = os.environ | {"LD_PRELOAD": str(library), "OFFSET_FILE": str(clock)}
    try:
        for node in nodes:
            node.start()
        await_units(nodes[1:])
        for step in STEPS:
            faults += faults_of(step, take(step, nodes, clock, words.seconds))
    finally:
        stop(nodes)
    is_well = agree(nodes)
    print("".join(f"{fault}\n" for fault in faults), end="")
    return is_well and not faults


def main(arguments=None):
    parser = argparse.ArgumentParser(description=__doc__, formatter_class=argparse.RawDescriptionHelpFormatter)
    parser.add_argument("program", type=lambda text: Path(text).resolve(), metavar="PROGRAM")
    parser.add_argument("--seconds", type=float, default=3.0, help="how long each step is; three at least")
    words = parser.parse_args(arguments)
    room = Path(tempfile.mkdtemp(prefix="highway-"))
    if not tried(words, room):
        print(f"the folders stand in {room}")
        return 1
    shutil.rmtree(room)
    return 0


if __name__ == "__main__":
    sys.exit(main())
