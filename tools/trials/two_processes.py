#!/usr/bin/env python3
"""Starts a second process on the log of a validator, or kills one as it makes its log, and says whether the log reads
as what was written and anybody equivocated: two_processes.py PROGRAM KIND TRIES

    together   two processes `run` validator 0 on one log, started at the same time
    overlap    a second process starts on the log after a second; the first is killed 0.3 s later, and a third starts
    beside     `serve` and `run` have one log
    killed     a process that has no log is killed within 1.5 ms of its lock: then there is no log, or it replays

But for `killed`, each try has a hub and three validators on this machine. At its end all are killed, validator 0 runs
once more alone, and then the logs of the hub and of validator 0 are read: each entry has to be signed by the keys,
nothing may be parked, the two logs have to agree, and nobody may be faulty. So a log reads as what was written. The
status is 0 where that is so each time.

`--jobs` tries at a time. The gate runs `together` once; it proves nothing."""

import argparse
import concurrent.futures
import random
import shutil
import subprocess
import sys
import tempfile
import time
from pathlib import Path

sys.path.insert(0, str(Path(__file__).resolve().parents[1]))

from lens.log import read_as_far, read_keys  # noqa: E402
from rejoin.main import Problem, check_signatures, free_port  # noqa: E402

DATA = Path(__file__).resolve().parents[2] / "crates" / "highway" / "data"
NODE = ("settings.json", "keys")
TURNS, SESSIONS = "1000000", "65536"


class Nodes:
    """Nodes in one folder; all of them are killed at the end."""

    def __init__(self, program, folder):
        self.program, self.folder, self.running = str(program), Path(folder), []
        for name in NODE:
            shutil.copy(DATA / name, self.folder)

    def start(self, command, log, *words):
        line = [self.program, command, *NODE, log, *map(str, words)]
        node = subprocess.Popen(line, cwd=self.folder, stdout=subprocess.DEVNULL, stderr=subprocess.DEVNULL)
        self.running.append(node)
        return node

    def run(self, number, *peers):
        return self.start("run", f"v{number}.log", number, TURNS, *peers)

    def kill(self, *nodes):
        for node in nodes:
            node.kill()
            node.wait()
            self.running.remove(node)

    def said(self, *words):
        done = subprocess.run([self.program, *words], cwd=self.folder, capture_output=True, text=True)
        return done.returncode, done.stdout.splitlines()


def hurt_together(nodes, hub):
    nodes.run(0, hub)
    nodes.run(0, hub)
    time.sleep(1.5)


def hurt_overlap(nodes, hub):
    first = nodes.run(0, hub)
    time.sleep(1)
    nodes.run(0, hub)
    time.sleep(0.3)
    nodes.kill(first)
    nodes.run(0, hub)
    time.sleep(1)


def hurt_beside(nodes, hub):
    nodes.start("serve", "v0.log", f"127.0.0.1:{free_port()}", SESSIONS)
    time.sleep(0.05)
    nodes.run(0, hub)
    time.sleep(1.5)


def problem_of(nodes):
    """What is wrong with the logs, or None."""
    for log in ("hub", "v0"):
        path = nodes.folder / f"{log}.log"
        status, lines = nodes.said("mend", path.name, f"{log}.whole")
        if status:
            return f"{log}: {' '.join(lines)}"
        whole = nodes.folder / f"{log}.whole"
        if len(read_as_far(whole).entries) < 3:
            return f"{log}: fewer than three entries"
        try:
            check_signatures(whole, read_keys(nodes.folder / "keys"))
        except Problem as problem:
            return f"{log}: {problem}"
        status, lines = nodes.said("replay", whole.name)
        if status or " parked 0 " not in lines[0] or lines[1] != "faulty -":
            return f"{log}: status {status}: {lines[0]}; {lines[1]}"
    status, lines = nodes.said("audit", "hub.whole", "v0.whole")
    return None if status == 0 else f"audit: status {status}: {' '.join(lines)}"


def one_try(program, kind):
    """What is wrong after one try, or None."""
    with tempfile.TemporaryDirectory() as folder:
        nodes = Nodes(program, folder)
        try:
            hub = f"127.0.0.1:{free_port()}"
            serving = nodes.start("serve", "hub.log", hub, SESSIONS)
            time.sleep(0.2)
            for number in (1, 2):
                nodes.run(number, hub)
            {"together": hurt_together, "overlap": hurt_overlap, "beside": hurt_beside}[kind](nodes, hub)
            nodes.kill(*(node for node in list(nodes.running) if node is not serving))
            nodes.run(0, hub)
            time.sleep(1.2)
        finally:
            nodes.kill(*list(reversed(nodes.running)))
        return problem_of(nodes)


def lock_problem(node, lock, patience=20):
    """Waits until there is this lock, and answers why there is none, or None."""
    until = time.monotonic() + patience
    while not lock.exists():
        if node.poll() is not None:
            return f"v0: it ended with status {node.returncode}, and took no lock"
        if time.monotonic() > until:
            return f"v0: it took no lock in {patience:g} seconds"
    return None


def killed_try(program, _kind):
    """What is wrong with the log of a process that was killed as it made it, or None."""
    with tempfile.TemporaryDirectory() as folder:
        nodes = Nodes(program, folder)
        node = nodes.run(0, f"127.0.0.1:{free_port()}")
        problem = lock_problem(node, nodes.folder / "v0.log.lock")
        until = time.monotonic() + random.random() * 0.0015
        while time.monotonic() < until:
            pass
        nodes.kill(node)
        if problem or not (nodes.folder / "v0.log").exists():
            return problem
        status, lines = nodes.said("replay", "v0.log")
        return None if status == 0 else f"v0: status {status}: {lines[0]}"


def main(arguments=None):
    parser = argparse.ArgumentParser(description=__doc__, formatter_class=argparse.RawDescriptionHelpFormatter)
    parser.add_argument("program", type=lambda text: Path(text).resolve(), metavar="PROGRAM")
    parser.add_argument("kind", choices=("together", "overlap", "beside", "killed"), metavar="KIND")
    parser.add_argument("tries", type=int, metavar="TRIES")
    parser.add_argument("--jobs", type=int, default=1)
    words = parser.parse_args(arguments)
    with concurrent.futures.ThreadPoolExecutor(words.jobs) as pool:
        try_it = killed_try if words.kind == "killed" else one_try
        found = list(pool.map(lambda _: try_it(words.program, words.kind), range(words.tries)))
    problems = [problem for problem in found if problem]
    for problem in problems:
        print(problem)
    print(f"{words.kind}: {words.tries} tries, {len(problems)} with a problem")
    return 1 if problems else 0


if __name__ == "__main__":
    sys.exit(main())
