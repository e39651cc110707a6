#!/usr/bin/env python3
"""Runs a network of three machines as docs/OPERATING.md sets it up, each in a network namespace of its own.

    three_machines.py PROGRAM [--seconds 60] [--delay 2] [--exponent 10]

Each machine has a hub and a validator, and each validator dials all three hubs. A byte takes `--delay` milliseconds from
one machine to another, by a relay in front of each remote hub, and the shortest round takes two to the `--exponent`
milliseconds. Keys and first logs are made by the tools that the document names. After a third of the time the third
machine is switched off (SIGKILL of both nodes), and after two thirds it is switched on again, by the steps of its unit
file. At the end all logs are replayed and each two of them audited. The status is 0 where each third of the time brought
final blocks on the first machine, nobody is faulty, and all logs agree.

It needs Linux, `ip` and to be run as root. It stands outside the gate and proves nothing."""

import argparse
import contextlib
import json
import os
import shutil
import socket
import subprocess
import sys
import tempfile
import threading
import time
from pathlib import Path

TOOLS = Path(__file__).resolve().parents[1]
PORT, FIRST_RELAY, COUNT = 7401, 7501, 3


def run(*words, **how):
    return subprocess.run([str(word) for word in words], check=True, capture_output=True, text=True, **how).stdout


class Machine:
    """A machine: its namespace, its address, its folder, and its nodes that run."""

    def __init__(self, number, room, program, delay):
        self.number, self.program, self.delay = number, program, delay
        self.space, self.address = f"highway-{os.getpid()}-{number}", f"10.77.0.{number + 1}"
        self.folder, self.nodes, self.relays = room / self.space, {}, []
        self.folder.mkdir()

    def connect(self, bridge):
        """Puts the machine on the network."""
        run("ip", "netns", "add", self.space)
        end = f"hw{os.getpid() % 100000}.{self.number}"
        run("ip", "link", "add", end, "type", "veth", "peer", "name", "eth0", "netns", self.space)
        run("ip", "link", "set", end, "master", bridge, "up")
        run(*self.inside("ip", "link", "set", "lo", "up"))
        run(*self.inside("ip", "addr", "add", f"{self.address}/24", "dev", "eth0"))
        run(*self.inside("ip", "link", "set", "eth0", "up"))

    def inside(self, *words):
        return ("ip", "netns", "exec", self.space, *words)

    def relay(self, machines):
        """Starts a relay in front of each remote hub. It stands for the way between the machines."""
        for other in machines:
            if other is not self:
                words = [sys.executable, __file__, "relay", FIRST_RELAY + other.number, other.address, self.delay]
                self.relays.append(subprocess.Popen([str(word) for word in self.inside(*words)]))

    def start(self, machines):
        """Starts the hub and the validator as their unit files do: the log is there and mended, and then the node."""
        peers = [
            f"{self.address}:{PORT}" if other is self else f"127.0.0.1:{FIRST_RELAY + other.number}"
            for other in machines
        ]
        for name, words in (
            ("hub", ["serve", "settings.json", "keys", "hub.log", f"{self.address}:{PORT}", 65536]),
            ("v", ["run", "settings.json", "keys", "v.log", self.number, 1_000_000, *peers]),
        ):
            run(
                sys.executable,
                TOOLS / "rejoin.py",
                "mend",
                self.folder / name / f"{name}.log",
                "--program",
                self.program,
            )
            with open(self.folder / name / "out", "ab") as out, open(self.folder / name / "err", "ab") as err:
                line = [str(word) for word in self.inside(self.program, *words)]
                self.nodes[name] = subprocess.Popen(line, cwd=self.folder / name, stdout=out, stderr=err)

    def switch_off(self):
        for node in self.nodes.values():
            node.kill()
            node.wait()
        self.nodes = {}

    def remove(self):
        self.switch_off()
        for relay in self.relays:
            relay.kill()
            relay.wait()
        subprocess.run(["ip", "netns", "del", self.space], check=False, capture_output=True)

    def log(self, name):
        return self.folder / name / f"{name}.log"

    def prepare(self, settings, keys):
        """Puts the settings, the keys and the first log of each node there."""
        for name in ("hub", "v"):
            (self.folder / name).mkdir()
            (self.folder / name / "settings.json").write_text(json.dumps(settings), encoding="ascii")
            shutil.copy(keys, self.folder / name / "keys")
            words = ("settings.json", "keys", f"{name}.log")
            run(sys.executable, TOOLS / "rejoin.py", "new", self.program, *words, cwd=self.folder / name)


# ---- the way between machines


def pass_on(source, target, delay):
    """Passes on what comes, each piece after the delay, until the source ends."""
    pieces, there = [], threading.Condition()

    def send():
        while True:
            with there:
                while not pieces:
                    there.wait()
                moment, data = pieces.pop(0)
            time.sleep(max(0, moment - time.monotonic()))
            with contextlib.suppress(OSError):
                if not data:
                    target.shutdown(socket.SHUT_WR)
                    return
                target.sendall(data)

    threading.Thread(target=send, daemon=True).start()
    data = b"."
    while data:
        try:
            data = source.recv(65536)
        except OSError:
            data = b""
        with there:
            pieces.append((time.monotonic() + delay, data))
            there.notify()


def relay(port, address, delay):
    """Listens at this port, and passes each connection on to the hub at this address."""
    with socket.create_server(("127.0.0.1", port)) as door:
        while True:
            link = door.accept()[0]
            try:
                far = socket.create_connection((address, PORT), timeout=5)
            except OSError:
                link.close()
                continue
            far.settimeout(None)
            for end in (link, far):
                end.setsockopt(socket.IPPROTO_TCP, socket.TCP_NODELAY, 1)
            for pair in ((link, far), (far, link)):
                threading.Thread(target=pass_on, args=(*pair, delay), daemon=True).start()


# ---- what came of it


def replay_of(program, log):
    """The lines of the report on a copy of a log, up to its last whole entry, and the status."""
    with tempfile.TemporaryDirectory(prefix="highway-replay-") as room:
        run(program, "mend", log, f"{room}/whole.log")
        done = subprocess.run([program, "replay", "whole.log"], cwd=room, capture_output=True, text=True, check=False)
        return done.stdout.splitlines(), done.returncode


def finals_of(program, machine):
    return sum(line.startswith("final ") for line in replay_of(program, machine.log("v"))[0])


def agree(program, machines):
    """Whether nobody is faulty in any log, and each two agree."""
    is_well, logs = True, [machine.log(name) for machine in machines for name in ("hub", "v")]
    for log in logs:
        lines, status = replay_of(program, log)
        print(f"{log.parent.parent.name[-1]} {log.name}: {lines[0] if lines else 'no report'}; {lines[1:2]}")
        is_well = is_well and status == 0 and lines[1:2] == ["faulty -"]
    with tempfile.TemporaryDirectory(prefix="highway-audit-") as room:
        copies = []
        for number, log in enumerate(logs):
            run(program, "mend", log, f"{room}/{number}")
            copies.append(f"{room}/{number}")
        for number, left in enumerate(copies):
            for right in copies[number + 1 :]:
                done = subprocess.run([program, "audit", left, right], capture_output=True, check=False)
                is_well = is_well and done.returncode == 0
    return is_well


def trial(asked, room, machines, bridge):
    run("ip", "link", "add", bridge, "type", "bridge")
    run("ip", "link", "set", bridge, "up")
    run(sys.executable, TOOLS / "rejoin" / "new_keys.py", COUNT, room / "keys")
    settings = {
        "weights": [1] * COUNT,
        "threshold": 0,
        "levels": 2,
        "exponents": [asked.exponent, asked.exponent + 4],
        "leaders": list(range(COUNT)),
    }
    for machine in machines:
        machine.connect(bridge)
        machine.prepare(settings, room / "keys")
    for machine in machines:
        machine.relay(machines)
        machine.start(machines)
    finals = [0]
    for part in ("all three", "without the third", "all three again"):
        if part == "without the third":
            machines[-1].switch_off()
        elif part == "all three again":
            machines[-1].start(machines)
        time.sleep(asked.seconds / 3)
        finals.append(finals_of(asked.program, machines[0]))
        print(f"{part}: {finals[-1] - finals[-2]} final blocks in {asked.seconds / 3:.0f} s", flush=True)
    running = all(node.poll() is None for machine in machines for node in machine.nodes.values())
    for machine in machines:
        machine.switch_off()
    is_well = agree(asked.program, machines)
    return is_well and running and all(after > before for before, after in zip(finals, finals[1:]))


def main():
    if sys.argv[1:2] == ["relay"]:
        relay(int(sys.argv[2]), sys.argv[3], float(sys.argv[4]) / 1000)
    asked = argparse.ArgumentParser(description=__doc__, formatter_class=argparse.RawDescriptionHelpFormatter)
    asked.add_argument("program", type=lambda name: str(Path(name).resolve()))
    asked.add_argument("--seconds", type=float, default=60)
    asked.add_argument("--delay", type=float, default=2, metavar="MILLISECONDS")
    asked.add_argument("--exponent", type=int, default=10)
    asked = asked.parse_args()
    room, bridge = Path(tempfile.mkdtemp(prefix="highway-machines-")), f"hw{os.getpid() % 100000}"
    machines = [Machine(number, room, asked.program, asked.delay) for number in range(COUNT)]
    try:
        is_well = trial(asked, room, machines, bridge)
    finally:
        for machine in machines:
            machine.remove()
        subprocess.run(["ip", "link", "del", bridge], check=False, capture_output=True)
    if is_well:
        shutil.rmtree(room)
    else:
        print(f"the folders stand in {room}")
    return 0 if is_well else 1


if __name__ == "__main__":
    sys.exit(main())
