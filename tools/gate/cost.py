#!/usr/bin/env python3
"""Runs the gate, and prints what each crate cost it in processor seconds.

  tools/gate/cost.py            runs `rt ci` at the top of the repository, as it stands
  tools/gate/cost.py --anew     has it prove and try all, whatever earlier runs on this machine passed

The table has a row for each crate: its proof, its tests, its must-fail edits, the builds of its program, and its
runs. What `rt ci` passed earlier on this machine costs it nothing, so only --anew gives whole figures. They hold for
the machine and its load: run it alone, and compare rows of one run with each other.

How it measures: twice a second it reads from /proc the time of each process that rt started, with that of the processes
which it waited for. What a process took behind the last look at it is found in the time that rt itself waited for."""

import argparse
import os
import subprocess
import sys
import time
from collections import defaultdict
from dataclasses import dataclass

ROOT = os.path.dirname(os.path.dirname(os.path.dirname(os.path.abspath(__file__))))
KINDS = ("proof", "tests", "edits", "builds", "runs")
OTHERS = "(rt itself)"


@dataclass
class Seen:
    """A process as one look saw it: its parent, when it began, and its seconds, own and of those that it waited for."""

    parent: int
    began: int
    own: float
    waited: float


def processes():
    """Returns each process of this machine, by its number."""
    tick, found = os.sysconf("SC_CLK_TCK"), {}
    for name in os.listdir("/proc"):
        if name.isdigit():
            try:
                with open(f"/proc/{name}/stat", encoding="utf-8", errors="replace") as it:
                    parts = it.read().rpartition(")")[2].split()
            except OSError:
                continue
            user, system, user_waited, system_waited = map(int, parts[11:15])
            own, waited = (user + system) / tick, (user_waited + system_waited) / tick
            found[int(name)] = Seen(int(parts[1]), int(parts[19]), own, waited)
    return found


def described(number):
    """Returns the words and the folder of a process, empty where it is gone."""
    try:
        with open(f"/proc/{number}/cmdline", "rb") as it:
            words = it.read().decode(errors="replace").split("\0")
        return words, os.readlink(f"/proc/{number}/cwd")
    except OSError:
        return [], ""


def label(words, folder):
    """Returns the crate that a process works for and the kind of its work, or None where it is neither's."""
    programs = [os.path.basename(it) for it in words]
    if "--crate-name" in words:
        crate = words[words.index("--crate-name") + 1]
        if os.path.basename(folder).startswith("rt-edit"):
            return crate, "edits"
        if "--test" in words:
            return crate, "tests"
        return crate, "builds" if "--crate-checked" in words else "proof"
    for it in words:
        at, _, name = it.rpartition("/bin/")
        if os.path.basename(at).startswith("rt-run-"):
            return name.removesuffix("_tests"), "runs"
    if "rattle-link" in programs and "crates" in folder.split("/"):
        return folder.rstrip("/").split("/")[-1], "builds"
    return None


class Meter:
    """Adds up the seconds of the processes that one process starts."""

    def __init__(self, root):
        self.root, self.costs, self.last, self.labels, self.waited = root, defaultdict(float), {}, {}, 0.0

    def look(self, seen, describe=described):
        """Takes one look at all processes."""
        if self.root not in seen:
            return
        below = defaultdict(list)
        for number, it in seen.items():
            below[it.parent].append(number)
        now = {}
        for number in below[self.root]:
            key = number, seen[number].began
            now[key] = spent(seen, below, number)
            if not self.labels.get(key):
                self.labels[key] = label(*describe(number))
        self.settle(now, seen[self.root].waited)

    def settle(self, now, waited):
        """Books what ended since the last look, with what it took behind that, and keeps what goes on."""
        ended = {key: total for key, total in self.last.items() if key not in now}
        unseen = max(0.0, waited - self.waited - sum(ended.values())) if ended else 0.0
        for key, total in ended.items():
            self.costs[self.labels.get(key) or (OTHERS, "runs")] += total + unseen / len(ended)
        self.last, self.waited = now, waited

    def end(self, total):
        """Books what is left of the whole time that the root process and all that it waited for took."""
        for key, spent_so_far in self.last.items():
            self.costs[self.labels.get(key) or (OTHERS, "runs")] += spent_so_far
        self.last = {}
        self.costs[OTHERS, "runs"] += max(0.0, total - sum(self.costs.values()))


def spent(seen, below, number):
    """Returns the seconds of a process and of all below it, those that ended included."""
    it = seen[number]
    return it.own + it.waited + sum(spent(seen, below, child) for child in below.get(number, []))


def table(costs):
    """Returns the lines of the table, the dearest crate first."""
    rows = defaultdict(dict)
    for (crate, kind), seconds in costs.items():
        rows[crate][kind] = rows[crate].get(kind, 0.0) + seconds
    lines = [f"{'crate':24}" + "".join(f"{it:>9}" for it in (*KINDS, "all"))]
    order = sorted(rows.items(), key=lambda it: (it[0] == OTHERS, -sum(it[1].values())))
    for crate, row in order:
        if crate == OTHERS:
            lines.append(f"{crate:24}" + " " * 9 * len(KINDS) + f"{sum(row.values()):9.0f}")
        else:
            lines.append(f"{crate:24}" + "".join(cell(row.get(it, 0.0)) for it in KINDS) + f"{sum(row.values()):9.0f}")
    whole = [sum(row.get(it, 0.0) for crate, row in rows.items() if crate != OTHERS) for it in KINDS]
    total = sum(costs.values())
    return [*lines, f"{'all':24}" + "".join(map(cell, whole)) + f"{total:9.0f}"]


def cell(seconds):
    return f"{seconds:9.0f}" if seconds >= 0.5 else " " * 9


def gate(words, every):
    """Runs the gate with these words, and returns its status, the costs and the seconds by the clock."""
    began = time.monotonic()
    ran = subprocess.Popen(["rt", "ci", *words], cwd=ROOT)
    meter = Meter(ran.pid)
    while True:
        ended, status, used = os.wait4(ran.pid, os.WNOHANG)
        if ended:
            break
        meter.look(processes())
        time.sleep(every)
    ran.returncode = os.waitstatus_to_exitcode(status)
    meter.end(used.ru_utime + used.ru_stime)
    return ran.returncode, meter.costs, time.monotonic() - began


def main(words):
    parser = argparse.ArgumentParser(description=__doc__, formatter_class=argparse.RawDescriptionHelpFormatter)
    parser.add_argument("names", nargs="*", metavar="NAME", help="only these crates and those below them")
    parser.add_argument("--anew", action="store_true", help="prove and try all, whatever was passed earlier")
    parser.add_argument("--every", type=float, default=0.5, metavar="SECONDS", help="the time between two looks")
    given = parser.parse_args(words)
    try:
        status, costs, clock = gate([*["--anew"] * given.anew, *given.names], given.every)
    except FileNotFoundError:
        print("gate cost: there is no rt on the path", file=sys.stderr)
        return 2
    print("\n".join(["", "processor seconds:", *table(costs)]))
    minutes = f"{sum(costs.values()) / 60:.0f} processor minutes, {clock / 60:.0f} by the clock"
    print(f"{minutes}, {len(os.sched_getaffinity(0))} processors")
    return status


if __name__ == "__main__":
    sys.exit(main(sys.argv[1:]))
