#!/usr/bin/env python3
"""Rejoins a validator that lost its whole log, where the log of its peer is long.

    rejoin_long.py PROGRAM [--units 131000] [--rate 4]

A log of so many units of three validators is made, each signed by the keys that are shipped. Then tools/rejoin.py joins
validator 0, which has no log, once with that log as a file beside it, and once with a peer that hosts it behind a line of
`--rate` million bits a second each way. The status is 0 where both say that it is safe to run and have all units.

It stands outside the gate and proves nothing."""

import argparse
import contextlib
import dataclasses
import shutil
import socket
import subprocess
import sys
import tempfile
import threading
import time
from pathlib import Path

sys.path.insert(0, str(Path(__file__).resolve().parents[1]))

from lens.log import (
    ABSENT,
    Config,
    SignedUnit,
    Unit,
    digest_of,
    read_keys,
    spelled_config,
    spelled_log,  # noqa: E402
    unit_signature,
    with_digest,
)
from rejoin.main import free_port  # noqa: E402

DATA = Path(__file__).resolve().parents[2] / "crates" / "highway" / "data"
REJOIN = Path(__file__).resolve().parents[1] / "rejoin.py"
COUNT, EXPONENT = 3, 8


def shipped():
    """The configuration and the keys that are shipped."""
    config = Config((1,) * COUNT, 0, 1, EXPONENT, 12, tuple(range(COUNT)), 131_072, 4_096, None)
    return dataclasses.replace(config, instance=digest_of(spelled_config(config))), read_keys(DATA / "keys")


def long_log(units):
    """The bytes of a log of so many units: in each round a proposal, a confirmation of each other, and a witness of each."""
    config, keys = shipped()
    latest, numbers, signed = [None] * COUNT, [0] * COUNT, []

    def make(creator, moment, value=None):
        panorama = tuple(it or ABSENT for it in latest)
        unit = with_digest(Unit(config.instance, creator, numbers[creator], moment, EXPONENT, panorama, value, ()))
        signed.append((True, SignedUnit(unit, unit_signature(keys[creator], unit))))
        latest[creator], numbers[creator] = unit.digest, numbers[creator] + 1

    for number in range(units // (2 * COUNT) + 1):
        begin, leader = number << EXPONENT, number % COUNT
        make(leader, begin, begin.to_bytes(12))
        for other in range(COUNT):
            if other != leader:
                make(other, begin + 8 + other)
        for each in range(COUNT):
            make(each, begin + 176 + each)
    return spelled_log(config, signed[:units], 2)


@contextlib.contextmanager
def slow_line(port, rate):
    """The address of a line to this port that takes so many bytes a second each way."""
    with socket.create_server(("127.0.0.1", 0)) as door:

        def pump(source, target):
            with contextlib.suppress(OSError):
                free = time.monotonic()
                while data := source.recv(16384):
                    free = max(free, time.monotonic()) + len(data) / rate
                    time.sleep(max(0, free - time.monotonic()))
                    target.sendall(data)
                target.shutdown(socket.SHUT_WR)

        def listen():
            with contextlib.suppress(OSError):
                while True:
                    near = door.accept()[0]
                    try:
                        far = socket.create_connection(("127.0.0.1", port))
                    except OSError:
                        near.close()
                        continue
                    for pair in ((near, far), (far, near)):
                        pair[0].setsockopt(socket.SOL_SOCKET, socket.SO_RCVBUF, 65536)
                        threading.Thread(target=pump, args=pair, daemon=True).start()

        threading.Thread(target=listen, daemon=True).start()
        yield f"127.0.0.1:{door.getsockname()[1]}"


def rejoined(program, room, name, peer, units):
    """Whether validator 0 is brought back by this peer into a new folder, with all its units."""
    folder = room / name
    folder.mkdir()
    for file in ("settings.json", "keys"):
        shutil.copy(DATA / file, folder)
    began = time.monotonic()
    words = [sys.executable, REJOIN, "join", program, "settings.json", "keys", "own.log", "0", peer, "--settle", "1"]
    done = subprocess.run(words, cwd=folder, capture_output=True, text=True, check=False)
    print(
        f"{name}: status {done.returncode} after {time.monotonic() - began:.0f} s: {(done.stdout + done.stderr).strip()[-300:]}",
        flush=True,
    )
    return done.returncode == 0 and f"has {units} own units" in done.stdout


def main():
    asked = argparse.ArgumentParser(description=__doc__, formatter_class=argparse.RawDescriptionHelpFormatter)
    asked.add_argument("program", type=lambda name: str(Path(name).resolve()))
    asked.add_argument("--units", type=int, default=131_000)
    asked.add_argument("--rate", type=float, default=4.0, metavar="MEGABITS")
    asked = asked.parse_args()
    with tempfile.TemporaryDirectory(prefix="highway-long-") as folder:
        room, port = Path(folder), free_port()
        data = long_log(asked.units)
        (room / "peer.log").write_bytes(data)
        own = sum(1 for number in range(asked.units) if creator_at(number) == 0)
        print(f"a log of {asked.units} units and {len(data)} bytes", flush=True)
        is_well = rejoined(asked.program, room, "file", str(room / "peer.log"), own)
        for file in ("settings.json", "keys"):
            shutil.copy(DATA / file, room)
        words = [asked.program, "host", "settings.json", "keys", "peer.log", f"127.0.0.1:{port}", "65536"]
        host = subprocess.Popen(words, cwd=room, stdout=subprocess.DEVNULL, stderr=subprocess.DEVNULL)
        try:
            with slow_line(port, asked.rate * 125_000) as address:
                is_well = rejoined(asked.program, room, "line", address, own) and is_well
        finally:
            host.kill()
            host.wait()
    return 0 if is_well else 1


def creator_at(number):
    """Who makes the unit of this number in a long log."""
    leader, place = number // (2 * COUNT) % COUNT, number % (2 * COUNT)
    if place >= COUNT:
        return place - COUNT
    return [leader, *(other for other in range(COUNT) if other != leader)][place]


if __name__ == "__main__":
    sys.exit(main())
