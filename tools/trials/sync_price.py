#!/usr/bin/env python3
"""Says what it costs a network that each log is on the disk before a byte goes out: sync_price.py PROGRAM [--runs 6]

A hub and three validators run on this machine for eight seconds (`--seconds`), so many times as they are, and in turn
as often with tools/trials/sync_price.c loaded into them, whose `fsync` and `fdatasync` do nothing. The final blocks in the log
of validator 0 are counted. The last line is the cost, as a share of the final blocks that there are without syncs.

The status is 0 where that is no more than a tenth, also where there is no C compiler and so nothing was tried. It
stands outside the gate and proves nothing.
"""

import argparse
import os
import shutil
import subprocess
import sys
import tempfile
import time
from pathlib import Path

sys.path.insert(0, str(Path(__file__).resolve().parents[1]))

from trials.three_validators import network, steady_port, stop  # noqa: E402

HERE = Path(__file__).resolve().parent
LIMIT = 0.1


def library_in(folder):
    """What has a program's syncs do nothing, or None where there is no C compiler."""
    compiler, library = shutil.which("cc"), Path(folder) / "sync_price.so"
    if compiler is None:
        return None
    subprocess.run([compiler, "-O1", "-shared", "-fPIC", "-o", library, HERE / "sync_price.c"], check=True)
    return library


def finals(node):
    """The final blocks in the log of a node that was stopped."""
    said, status = node.call("replay", node.log)
    if status:
        sys.exit(f"{node.name}: replay of its log ended with status {status}")
    return sum(line.startswith("final ") for line in said.splitlines())


def final_blocks(words, library):
    """How many blocks are final after one run, whose syncs do nothing where there is a library."""
    with tempfile.TemporaryDirectory(prefix="highway-") as room:
        nodes = network(Path(room), [str(words.program)], steady_port())
        try:
            for node in nodes:
                node.environment = os.environ | {"LD_PRELOAD": str(library)} if library else None
                node.start()
            time.sleep(words.seconds)
        finally:
            stop(nodes)
        return finals(nodes[1])


def told(synced, unsynced):
    """The last line on the final blocks of all runs, and whether the syncs cost no more than they may."""
    cost = 1 - sum(synced) / sum(unsynced) if sum(unsynced) else 1
    line = f"{sum(synced)} final blocks in {len(synced)} runs, {sum(unsynced)} without syncs: they cost {cost:.1%}"
    return line, cost <= LIMIT


def main(arguments=None):
    parser = argparse.ArgumentParser(description=__doc__, formatter_class=argparse.RawDescriptionHelpFormatter)
    parser.add_argument("program", type=lambda text: Path(text).resolve(), metavar="PROGRAM")
    parser.add_argument("--runs", type=int, default=6)
    parser.add_argument("--seconds", type=float, default=8.0, help="how long each run is")
    words = parser.parse_args(arguments)
    with tempfile.TemporaryDirectory(prefix="highway-") as folder:
        library = library_in(folder)
        if library is None:
            print("there is no C compiler, so nothing was tried")
            return 0
        synced, unsynced = [], []
        for _ in range(words.runs):
            synced.append(final_blocks(words, None))
            unsynced.append(final_blocks(words, library))
            print(f"{synced[-1]} final blocks, {unsynced[-1]} without syncs; load {os.getloadavg()[0]:.0f}", flush=True)
    line, is_well = told(synced, unsynced)
    print(line)
    return 0 if is_well else 1


if __name__ == "__main__":
    sys.exit(main())
