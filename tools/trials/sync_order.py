#!/usr/bin/env python3
"""Checks by strace that a node's log is on the disk before a byte goes out to a peer.

    sync_order.py PROGRAM [--seconds 4]
    sync_order.py --read TRACE LOG

The first form starts a hub and two validators on this machine, and then twice a node that hosts and one that meets it,
each below strace. It reads what the system was asked for, and says of each node how often it appended, synced and sent. A
fault is

- a send while something was appended to the log and not synced (`fdatasync` or `fsync`) since,
- a log that was made and whose folder wasn't synced before the first send after it,
- a node that sent nothing, or had no log and appended nothing, since then nothing was seen.

The second form reads a trace that `strace -y` wrote of one node; LOG is the name of its log as the trace has it. The
status is 0 where there is no fault, also where strace isn't installed and so nothing was tried, and 1 otherwise.

The gate runs it where strace is; it proves nothing."""

import argparse
import os
import re
import shutil
import signal
import socket
import subprocess
import sys
import tempfile
import time
from dataclasses import dataclass, field
from pathlib import Path

DATA = Path(__file__).resolve().parents[2] / "crates" / "highway" / "data"
NODE = ("settings.json", "keys")
CALLS = "openat,write,writev,pwrite64,fsync,fdatasync,rename,renameat,renameat2,sendto,sendmsg"
# What follows the name of a log until it has that name: such a file is made where there is no log.
UNNAMED = ".part"
# A call that strace wrote in one line: its name, its descriptor, the file or socket of that, and what it answered.
CALL = re.compile(r"(?:\[pid +\d+\] |\d+ +)?(\w+)\((?:(\d+)<([^>]*)>)?.*\) += (-?\d+)")
MADE = re.compile(r"openat\(.*O_CREAT.*\) += \d+<([^>]*)>")


@dataclass
class Order:
    """What was seen in a trace."""

    log: str
    is_to_append: bool = True
    appends: int = 0
    syncs: int = 0
    sends: int = 0
    faults: list = field(default_factory=list)
    unsynced: int = 0
    is_folder_unsynced: bool = False

    def names_log(self, path):
        return path in (self.log, self.log + UNNAMED)

    def take(self, number, line):
        """Goes on by one line of the trace."""
        made = MADE.search(line)
        if made and made[1] == self.log + UNNAMED:
            self.is_folder_unsynced = True
        call = CALL.match(line)
        if call is None or int(call[4]) < 0 or call[3] is None:
            return
        name, path = call[1], call[3]
        if self.names_log(path):
            self.take_of_log(name)
        elif name in ("fsync", "fdatasync") and path == str(Path(self.log).parent):
            self.is_folder_unsynced = False
        elif is_socket(path) and name in ("write", "writev", "sendto", "sendmsg"):
            self.take_send(number)

    def take_of_log(self, name):
        if name in ("write", "writev", "pwrite64"):
            self.appends += 1
            self.unsynced += 1
        elif name in ("fsync", "fdatasync"):
            self.syncs += 1
            self.unsynced = 0

    def take_send(self, number):
        self.sends += 1
        if self.unsynced:
            self.faults.append(f"line {number}: a send, and {self.unsynced} appends aren't synced")
        if self.is_folder_unsynced:
            self.faults.append(f"line {number}: a send, and the folder of the new log isn't synced")

    def all_faults(self):
        found = list(self.faults)
        if self.is_to_append and not self.appends:
            found.append("nothing was appended")
        if not self.sends:
            found.append("nothing was sent")
        return found


def is_socket(path):
    """Whether strace calls a descriptor so that is a connection."""
    return path.startswith(("socket:", "TCP:", "TCPv6:"))


def order_of(lines, log, is_to_append=True):
    """What the lines of a trace say about the log of that name."""
    order = Order(log, is_to_append)
    for number, line in enumerate(lines, 1):
        order.take(number, line)
    return order


def told(name, order):
    """What a person is told of one node, and whether it has no fault."""
    faults = order.all_faults()
    print(f"{name}: {order.appends} appends, {order.syncs} syncs, {order.sends} sends, {len(faults)} faults")
    for fault in faults[:5]:
        print(f"  {fault}")
    return not faults


# ---- the nodes


class Traced:
    """A node below strace, in a folder of its own; `begins` is the log that it begins with, if it has one."""

    def __init__(self, program, folder, command, *words, begins=None):
        self.folder, self.appends = Path(folder).resolve(), begins is None
        self.folder.mkdir()
        for file in NODE:
            shutil.copy(DATA / file, self.folder)
        self.trace, self.log = self.folder / "trace", self.folder / "node.log"
        if begins:
            shutil.copy(begins, self.log)
        line = [
            "strace",
            "-f",
            "-y",
            "-s",
            "0",
            "-e",
            f"trace={CALLS}",
            "-o",
            self.trace,
            program,
            command,
            *NODE,
            "node.log",
            *words,
        ]
        self.running = subprocess.Popen(
            list(map(str, line)), cwd=self.folder, stdout=subprocess.DEVNULL, stderr=subprocess.DEVNULL
        )

    def order(self):
        """What is in its trace, once it has ended."""
        lines = self.trace.read_text(encoding="utf-8", errors="replace").splitlines()
        return order_of(lines, str(self.log), self.appends)

    def stop(self):
        """Kills the program; strace ends with it."""
        children = Path(f"/proc/{self.running.pid}/task/{self.running.pid}/children").read_text(encoding="ascii")
        for child in children.split():
            os.kill(int(child), signal.SIGKILL)
        self.running.wait()


def address():
    """An address of this machine at which nobody listens."""
    with socket.create_server(("127.0.0.1", 0)) as door:
        return f"127.0.0.1:{door.getsockname()[1]}"


def network(program, room, seconds):
    """A hub and two validators, once they have run for so long."""
    at = address()
    nodes = [Traced(program, room / "serve", "serve", at, 65536)]
    time.sleep(1)
    nodes += [Traced(program, room / f"run-{me}", "run", me, 1_000_000, at) for me in (0, 1)]
    time.sleep(seconds)
    for node in reversed(nodes):
        node.stop()
    return nodes


def meeting(program, room, name, host_begins, meet_begins):
    """A node that hosted, and one that met it, of which one had no log."""
    at = address()
    host = Traced(program, room / f"host{name}", "host", at, 1, begins=host_begins)
    time.sleep(1)
    meet = Traced(program, room / f"meet{name}", "meet", at, begins=meet_begins)
    for node in (meet, host):
        node.running.wait(60)
    return [host, meet]


def tried(program, seconds):
    """Whether no node of a network, and of two meetings, has a fault."""
    with tempfile.TemporaryDirectory(prefix="highway-") as folder:
        room = Path(folder)
        nodes = network(program, room, seconds)
        whole = room / "whole.log"
        subprocess.run([program, "mend", nodes[0].log, whole], check=True, stdout=subprocess.DEVNULL)
        nodes += meeting(program, room, "", whole, None)
        nodes += meeting(program, room, "-anew", None, whole)
        return all([told(node.folder.name, node.order()) for node in nodes])


def main(arguments=None):
    parser = argparse.ArgumentParser(description=__doc__, formatter_class=argparse.RawDescriptionHelpFormatter)
    parser.add_argument("program", nargs="?", type=lambda text: Path(text).resolve(), metavar="PROGRAM")
    parser.add_argument("--seconds", type=float, default=4.0, help="how long the network runs")
    parser.add_argument("--read", nargs=2, metavar=("TRACE", "LOG"))
    words = parser.parse_args(arguments)
    if words.read:
        lines = Path(words.read[0]).read_text(encoding="utf-8", errors="replace").splitlines()
        return 0 if told(words.read[0], order_of(lines, words.read[1])) else 1
    if words.program is None:
        parser.error("a PROGRAM, or --read with a trace, is needed")
    if shutil.which("strace") is None:
        print("strace isn't installed, so nothing was tried")
        return 0
    return 0 if tried(words.program, words.seconds) else 1


if __name__ == "__main__":
    sys.exit(main())
