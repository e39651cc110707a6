#!/usr/bin/env python3
"""What networks of nodes reach on this machine: `reach.py` lists them, `reach.py NAME..` tries them, and each prints
whether it reached what it has to, and what was seen. A busy machine is no measure: `chrt --rr 10 reach.py NAME` runs it
before what else there is. It stands outside the gate and proves nothing."""

import contextlib
import os
import random
import shutil
import signal
import socket
import statistics
import subprocess
import sys
import threading
import time
from pathlib import Path

import wires
from network import NODE, Loopback, Network, node_program

NOWHERE = "tcp://127.0.0.1:1"


class Missing(Exception):
    """Something that a row needs and this machine hasn't."""


def far(count, delay, loss):
    """Places for so many validators with wires between them."""
    what = wires.missing()
    if what:
        raise Missing(what)
    return wires.Wires(count, delay, loss)


@contextlib.contextmanager
def network_of(count, *wishes, places=None):
    network = Network(count, *wishes, places=places)
    try:
        yield network
    finally:
        network.close()


def all_decide(network, count=1, seconds=120):
    """Waits until each node that runs has so many final blocks."""
    network.wait_until(lambda: all(one["decided"] >= count for one in network.statuses()), seconds, "final blocks")


def goes_on(network, blocks=5, seconds=60):
    """Waits until each node that runs has so many more final blocks."""
    all_decide(network)
    before = [one["decided"] for one in network.statuses()]

    def holds():
        return all(new["decided"] >= old + blocks for old, new in zip(before, network.statuses()))

    network.wait_until(holds, seconds, "more final blocks")


def look(network, seconds):
    """Of the rounds of that time, how many lack a final block at each node four rounds later, and the latencies in rounds."""
    status = network.status(0)
    length = status["round_milliseconds"]
    begin = (status["now"] // length + 1) * length
    time.sleep(seconds)
    end = network.status(0)["now"] // length * length
    time.sleep(4 * length / 1000)
    wanted, missing, latencies = set(range(begin, end, length)), [], []
    for number in network.running:
        blocks = {block["time"]: block["latency"] / length for block in network.view(number)["blocks"]}
        missing.append(len(wanted - blocks.keys()))
        latencies += [blocks[one] for one in wanted & blocks.keys()]
    return len(wanted), missing, sorted(latencies)


def told(rounds, missing, latencies):
    middle = statistics.median(latencies)
    return (f"{rounds} rounds, at most {max(missing)} of them without a final block at a node, latency {middle:.2f} rounds,"
            f" {latencies[len(latencies) * 99 // 100]:.2f} at 99 %")


def steady(count, exponent, seconds, places=None, latency=1.5):
    """Every round's block is final at every node, with less than that median latency."""
    with network_of(count, "--exponents", f"{exponent},20", places=places and places()) as network:
        network.start_all()
        all_decide(network, 10)
        seen = look(network, seconds)
        return not any(seen[1]) and statistics.median(seen[2]) < latency, told(*seen)


def fast(exponent, seconds):
    """A thousand units a second in each store, and finality within three rounds."""
    with network_of(4, "--exponents", f"{exponent},20", "--records", "131072") as network:
        network.start_all()
        all_decide(network)
        before = network.statuses()
        time.sleep(seconds)
        after = network.statuses()
        took = (after[0]["now"] - before[0]["now"]) / 1000
        length = after[0]["round_milliseconds"]
        units = min(new["journal"] - old["journal"] for old, new in zip(before, after)) / took
        made = min(new["decided"] - old["decided"] for old, new in zip(before, after))
        latency = statistics.median(one["latency_median"] for one in after) / length
        commits = (after[0]["commits"] - before[0]["commits"]) / took
        figure = (f"{units:.0f} units/s in each store, {made} of {took * 1000 / length:.0f} rounds of {length} ms with a"
                  f" final block, latency {latency:.2f} rounds, {commits:.0f} commits/s")
        return units >= 1000 and latency <= 3, figure


def parted(seconds):
    """Halves that were parted go on within three rounds, and nobody is faulty."""
    with network_of(4, "--exponents", "10,20", places=far(4, 0.02, 0)) as network:
        network.start_all()
        all_decide(network, 5)
        network.places.part(True)
        time.sleep(seconds)
        before = [one["decided"] for one in network.statuses()]
        network.places.part(False)
        healed = time.monotonic()

        def goes_on_now():
            return all(new["decided"] > old for old, new in zip(before, network.statuses()))

        network.wait_until(goes_on_now, 60, "blocks after the halves were joined")
        rounds = (time.monotonic() - healed) * 1000 / 1024
        goes_on(network)
        faulty = [one["faulty"] for one in network.statuses()]
        figure = f"final blocks at all nodes {rounds:.1f} rounds after {seconds} s apart; faulty {faulty}"
        return rounds <= 3 and not any(faulty), figure


def agreement(network):
    """Ends all, and audits what they export. Whether all agree, and the answers."""
    for number in list(network.running):
        network.end(number)
    answers = [network.compare(0, other) for other in range(1, network.count)]
    return all(answer.startswith("agree ") for answer in answers), answers


def kills(times):
    """Nodes that are killed at random moments, one after the other."""
    with network_of(4, "--exponents", "8,20") as network:
        network.start_all()
        all_decide(network)
        for _ in range(times):
            number = random.randrange(4)
            network.end(number, signal.SIGKILL)
            time.sleep(random.random() / 2)
            network.start(number)
            time.sleep(random.random() * 1.5)
        goes_on(network)
        faulty = [one["faulty"] for one in network.statuses()]
        decided = network.status(0)["decided"]
        agrees, answers = agreement(network)
        return agrees and not any(faulty), f"{times} kills, {decided} final blocks, faulty {faulty}, audits {answers}"


def forgetful(folder):
    """The library of power.c."""
    compiler, library = shutil.which("cc"), Path(folder) / "power.so"
    if compiler is None:
        raise Missing("there is no C compiler")
    subprocess.run([compiler, "-O1", "-shared", "-fPIC", "-o", library, NODE / "tests" / "power.c", "-ldl"], check=True)
    return str(library)


def forget(store):
    """Leaves of a store what was synced."""
    for part in (store, store.with_name(store.name + "-wal")):
        kept = part.with_name(part.name + ".synced")
        part.unlink(missing_ok=True)
        if kept.exists():
            shutil.copyfile(kept, part)
    store.with_name(store.name + "-shm").unlink(missing_ok=True)


def power(commits):
    """Loses one node's power at each commit after a start: in turn before and after it is on the disk."""
    with network_of(4, "--exponents", "8,20") as network:
        disk = {"LD_PRELOAD": forgetful(network.folder)}
        for number in range(3):
            network.start(number)
        network.start(3, environment=disk)
        all_decide(network)
        network.end(3, signal.SIGKILL)
        for count in range(1, 2 * commits + 1):
            forget(network.folder / "3.sqlite")
            lost = {"POWER_LOST_AT": str((count + 1) // 2)} | ({"POWER_LOST_BEFORE": "1"} if count % 2 else {})
            network.start(3, environment=disk | lost)
            network.running.pop(3).wait(60)
        forget(network.folder / "3.sqlite")
        network.start(3, environment=disk)
        goes_on(network)
        faulty = [one["faulty"] for one in network.statuses()]
        agrees, answers = agreement(network)
        return agrees and not any(faulty), f"{2 * commits} losses of power, faulty {faulty}, audits {answers}"


def ways(network, others):
    """Settings by which these validators are reached at these places, or nowhere."""
    text = ""
    for validator, place in others.items():
        host, port = network.places.listens(place) if place is not None else (None, None)
        at = [NOWHERE] * 2 if place is None else [f"tcp://{host}:{port + one}" for one in (0, 1)]
        text += f'[[route]]\nvalidator = {validator}\nvertices = "{at[0]}"\nrequests = "{at[1]}"\n'
    return text


def twin(network, validator, place, others):
    """The settings of a second node with the keys of this validator."""
    network.set(place, ways(network, others))
    host, port = network.places.listens(place)
    text = network.settings(place).read_text().replace(f'"{place}.key"', f'"{validator}.key"')
    listen = f'listen = ["tcp://{host}:{port}", "tcp://{host}:{port + 1}"]\n'
    network.settings(place).write_text(listen + text)


def thirds():
    """Of six validators two run twice, one time with each half of the others, and the halves decide differently."""
    with network_of(6, "--exponents", "8,20", "--threshold", "1", places=Loopback(8)) as network:
        for number in (0, 1, 4, 5):
            network.set(number, ways(network, {2: None, 3: None}))
        for number in (2, 3):
            network.set(number, ways(network, {0: None, 1: None, 4: 6, 5: 7}))
        twin(network, 4, 6, {0: None, 1: None, 5: 7})
        twin(network, 5, 7, {0: None, 1: None, 4: 6})
        for number in (0, 1, 4, 5):
            network.start(number, "--without", "2,3")
        for number in (2, 3, 6, 7):
            network.start(number, "--without", "0,1")
        all_decide(network, 5)
        for number in list(network.running):
            network.end(number)
        for number in range(4):
            network.set(number)
            network.start(number, "--without", "4,5")

        def all_know():
            return all(one["faulty"] == [4, 5] and one["is_exceeded"] for one in network.statuses())

        network.wait_until(all_know, 60, "all know the culprits")
        time.sleep(1)
        pages = [[culprit["validator"] for culprit in network.view(number)["culprits"]] for number in range(4)]
        for number in range(4):
            network.end(number)
        said = [network.compare(0, other) for other in (1, 2, 3)]
        named = [sorted(line.split()[1] for line in one.splitlines() if line.startswith("culprit")) for one in said]
        firsts = [one.splitlines()[0] for one in said]
        is_met = pages == [[4, 5]] * 4 and named[1] == named[2] == ["4", "5"]
        return is_met, f"pages name {pages}; audits of 0 with 1, 2 and 3 begin {firsts} and name {named}"


@contextlib.contextmanager
def hostile(network, validator, how):
    """A program that misuses this validator's keys."""
    program = node_program().parent / "examples" / "hostile"
    if not program.exists():
        raise Missing("hostile isn't built: cargo build --release --offline --examples")
    log = network.export(0) / "network.hwlg"
    words = [network.folder / f"{validator}.key", network.folder / "genesis.toml", log, str(validator), how]
    process = subprocess.Popen([program, *words])
    try:
        yield
    finally:
        process.kill()
        process.wait()


def noise(ports, stop):
    """Sends junk to ports, each time by a new connection, until it is stopped."""
    while not stop.is_set():
        with contextlib.suppress(OSError), socket.create_connection(("127.0.0.1", random.choice(ports)), 1) as stranger:
            stranger.sendall(random.randbytes(5000))
        time.sleep(0.01)


def strangers(seconds):
    """200 silent connections, junk, a peer that never reads, and one that asks for everything again and again."""
    with network_of(4, "--exponents", "9,20") as network, contextlib.ExitStack() as last:
        network.start_all()
        all_decide(network, 40)
        ports = [network.places.listens(number)[1] + one for number in range(4) for one in (0, 1)]
        for place in range(200):
            last.enter_context(socket.create_connection(("127.0.0.1", ports[place % 8])))
        stop = threading.Event()
        last.callback(stop.set)
        threading.Thread(target=noise, args=(ports, stop), daemon=True).start()
        for validator, how in ((2, "deaf"), (3, "greedy")):
            last.enter_context(hostile(network, validator, how))
        rounds, missing, latencies = look(network, seconds)
        late = max(missing) + sum(one > 1.5 for one in latencies) / 4
        return late < rounds / 10, told(rounds, missing, latencies)


def flood(how, seconds):
    """One key within the threshold sends as many units as it can. It fills no journal, and the others go on."""
    with network_of(4, "--exponents", "9,20", "--threshold", "1") as network:
        for number in range(3):
            network.start(number, "--without", "3")
        all_decide(network)
        with hostile(network, 3, how):
            time.sleep(8)
            before = network.statuses()
            time.sleep(seconds)
            after = network.statuses()
        units = max(new["journal"] - old["journal"] for old, new in zip(before, after))
        blocks = min(new["decided"] - old["decided"] for old, new in zip(before, after))
        own = after[0]["own_units"] - before[0]["own_units"]
        came = {name: sum(one["came"].get(name, 0) for one in after) for name in sorted(after[0]["came"])}
        figure = (f"in {seconds} s the journals grew by {units}, of which about {3 * own} by the honest; {blocks} final blocks;"
                  f" journal {after[0]['journal']}; parked {after[0]['parked']}; came {came}")
        return units < 3.5 * own and blocks > seconds, figure


def resident(process):
    """The bytes of memory of a process."""
    pages = int(Path(f"/proc/{process.pid}/statm").read_text().split()[1])
    return pages * os.sysconf("SC_PAGE_SIZE")


def memory(minutes):
    """How much memory a node has more for each vertex more: early and late it has to be the same."""
    with network_of(4, "--exponents", "7,20") as network:
        network.start_all()
        all_decide(network)
        seen = []
        for _ in range(5):
            seen.append((network.status(0)["journal"], resident(network.running[0])))
            time.sleep(minutes * 15)
        seen = [(new[0] - old[0], new[1] - old[1]) for old, new in zip(seen, seen[1:])]
        each = [grown / max(1, vertices) for vertices, grown in seen]
        figure = ", ".join(f"{grown / 1e6:.1f} MB with {vertices} vertices" for vertices, grown in seen)
        stored = (network.folder / "0.sqlite").stat().st_size
        figure += f"; the last quarter {each[-1]:.0f} bytes a vertex; the store has {stored / 1e6:.1f} MB"
        return each[-1] <= 1.2 * statistics.mean(each[1:]), figure


ROWS = {
    "far-4": lambda: steady(4, 10, 40, lambda: far(4, 0.05, 0.01)),
    "far-16": lambda: steady(16, 10, 40, lambda: far(16, 0.05, 0.01)),
    "far-32": lambda: steady(32, 10, 40, lambda: far(32, 0.05, 0.01)),
    "farther-16": lambda: steady(16, 10, 40, lambda: far(16, 0.1, 0), 2.5),
    "fast": lambda: fast(2, 10),
    "hundred": lambda: steady(100, 11, 40),
    "parted": lambda: parted(60),
    "kills": lambda: kills(200),
    "power": lambda: power(40),
    "thirds": thirds,
    "strangers": lambda: strangers(30),
    "flood-forks": lambda: flood("forks", 20),
    "flood-breaks": lambda: flood("breaks", 20),
    "flood-waits": lambda: flood("waits", 20),
    "flood-old": lambda: flood("old", 20),
    "memory": lambda: memory(20),
}


def main(names):
    """Tries these rows; the status is 0 where none of them failed."""
    failed = False
    for name in names or ROWS:
        if not names:
            print(name)
            continue
        try:
            is_met, figure = ROWS[name]()
        except Missing as what:
            print(f"{name}: skipped, since {what}")
            continue
        failed |= not is_met
        print(f"{name}: {'reached' if is_met else 'NOT REACHED'}: {figure}; load {os.getloadavg()[0]:.0f}", flush=True)
    return failed


if __name__ == "__main__":
    sys.exit(main(sys.argv[1:]))
