"""A network of nodes on this machine, for the tests: its processes, its pages, and the audit of what they export."""

import json
import os
import signal
import socket
import subprocess
import sys
import tempfile
import time
import urllib.error
import urllib.request
from pathlib import Path

NODE = Path(__file__).resolve().parent.parent
TOP = NODE.parent


def node_program():
    """The node: that of NODE_PROGRAM, or the one that cargo built."""
    named = os.environ.get("NODE_PROGRAM")
    return Path(named) if named else NODE / "target" / "release" / "node"


def highway_command():
    """The program that audits: HIGHWAY_PROGRAM, the proved one, or one that is built without proof."""
    named = os.environ.get("HIGHWAY_PROGRAM")
    proved = TOP / "crates" / "highway" / "out" / "highway"
    if named:
        return [named]
    return [str(proved)] if proved.exists() else [str(TOP / "tools" / "look.sh")]


def free_ports(count):
    """So many ports that nobody uses now, in pairs that follow each other. The system gives others to who connects."""
    ports, first = [], 10000 + os.getpid() % 8000 * 2
    while len(ports) < count:
        first += 2
        try:
            for port in (first, first + 1):
                with socket.socket() as probe:
                    probe.bind(("127.0.0.1", port))
        except OSError:
            continue
        ports.append(first)
    return ports


class Loopback:
    """Where the validators of a network live: ports of this machine."""

    def __init__(self, count):
        self.ports = free_ports(2 * count)

    def before(self, _number):
        """The words before a command that runs there."""
        return []

    def listens(self, number):
        return "127.0.0.1", self.ports[2 * number]

    def page(self, number):
        return f"127.0.0.1:{self.ports[2 * number + 1]}"

    def close(self):
        """There is nothing to close."""


class Network:
    """Validators that were set up by `keygen` and `init`, each with a process when it is started."""

    def __init__(self, count, *wishes, places=None):
        self.room = tempfile.TemporaryDirectory()
        self.folder = Path(self.room.name)
        self.count = count
        self.places = places or Loopback(count)
        self.running = {}
        public = []
        for number in range(count):
            self.run("keygen", self.folder / f"{number}.key")
            host, port = self.places.listens(number)
            public.append(f"{self.folder / f'{number}.pub'}@{host}:{port}")
        self.run("init", self.folder / "genesis.toml", *public, *wishes)
        for number in range(count):
            self.set(number)

    def run(self, *words, status=0):
        """Runs the node with these words to its end; its two outputs as one text."""
        done = subprocess.run([node_program(), *map(str, words)], capture_output=True, text=True, timeout=120)
        if done.returncode != status:
            raise AssertionError(f"{words}: status {done.returncode}\n{done.stdout}{done.stderr}")
        return done.stdout + done.stderr

    def settings(self, number):
        return self.folder / f"{number}.toml"

    def set(self, number, routes=""):
        """Writes the settings of this validator, with other routes to its peers if they are given."""
        text = f'genesis = "genesis.toml"\nkeys = "{number}.key"\nstore = "{number}.sqlite"\n'
        self.settings(number).write_text(text + f'page = "{self.places.page(number)}"\n' + routes)

    def start(self, number, *words, environment=None):
        """Starts this validator."""
        with (self.folder / f"{number}.log").open("a") as log:
            command = [*self.places.before(number), node_program(), "run", self.settings(number), *words]
            self.running[number] = subprocess.Popen(command, stderr=log, env=os.environ | (environment or {}))

    def start_all(self):
        for number in range(self.count):
            self.start(number)

    def end(self, number, by=signal.SIGTERM):
        """Ends this validator by the signal; how long that took, and its status."""
        process = self.running.pop(number)
        began = time.monotonic()
        process.send_signal(by)
        status = process.wait(10)
        return time.monotonic() - began, status

    def close(self):
        for number in list(self.running):
            self.end(number, signal.SIGKILL)
        self.places.close()
        self.room.cleanup()

    def get(self, number, path):
        """What the page of this validator says there."""
        with urllib.request.urlopen(f"http://{self.places.page(number)}{path}", timeout=5) as answer:
            return answer.read()

    def view(self, number):
        return json.loads(self.get(number, "/view"))

    def status(self, number):
        return json.loads(self.get(number, "/status"))

    def statuses(self):
        return [self.status(number) for number in self.running]

    def wait_until(self, holds, seconds, what):
        """Waits until it holds; pages that don't answer yet don't count."""
        end = time.monotonic() + seconds
        while time.monotonic() < end:
            try:
                if holds():
                    return
            except (OSError, urllib.error.URLError):
                pass
            time.sleep(0.1)
        raise AssertionError(f"not within {seconds} s: {what}\n{self.last_lines()}")

    def last_lines(self):
        """The end of each log, or of some that have trouble where there are many."""
        ends = [f"{log.name}: " + "\n".join(log.read_text().splitlines()[-2:]) for log in sorted(self.folder.glob("*.log"))]
        return "\n".join(sorted(ends, key=lambda end: " INFO " in end.splitlines()[-1])[:8])

    def export(self, number):
        """The folder of this validator's log."""
        folder = self.folder / f"export{number}"
        self.run("export", self.settings(number), folder)
        return folder

    def compare(self, left, right):
        """What the program says of the logs of these two."""
        logs = [self.export(number) / "network.hwlg" for number in (left, right)]
        said = subprocess.run([*highway_command(), "audit", *logs], capture_output=True, text=True, timeout=900)
        return said.stdout.strip() or said.stderr.strip()

    def audit(self):
        """Audits the first log against each other one, and the signatures of all. The answers of the audits."""
        folders = [self.export(number) for number in range(self.count)]
        for folder in folders:
            command = [sys.executable, "-B", TOP / "tools" / "lens.py", "verify", folder / "network.hwlg",
                       folder / "public.keys", "--signatures", folder / "network.hwsg"]
            said = subprocess.run(command, capture_output=True, text=True, timeout=300)
            if said.returncode != 0 or " 0 without" not in said.stdout:
                raise AssertionError(f"lens verify: {said.stdout}{said.stderr}")
        return [self.compare(0, other) for other in range(1, self.count)]
