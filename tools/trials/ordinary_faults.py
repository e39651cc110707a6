#!/usr/bin/env python3
"""Does to real nodes what an operator's bad day does, and says whether each ends in a reason and not in silence.

    ordinary_faults.py PROGRAM [KIND ..] [--seconds 8]

    hub-down        a validator whose PEER refuses each dial: few turns, few lines
    hub-at-rest     the same, and the PEER accepts and says nothing
    idle-hub        a hub and three validators with nothing to do: what share of a processor the hub takes
    full-journal    a network whose journals are short: each node says when a tenth, a hundredth and nothing is left
    lost-name       a validator with a good PEER and one whose name doesn't resolve, beside one without the second
    slow-name       the same, and names resolve in four seconds (with a C compiler)
    zeroed-entry    the signature of a log's last entry is zeros: the node doesn't start, and says why
    wrong-key       a validator's own key is another: likewise
    unsigned-vertex peers send vertices that aren't signed: each kind of node says so once a minute, with who it was
    talking-peer    a validator with a good PEER and one that says the same vertices again and again, not too slowly
    parting-peer    the same, with one that says what isn't due and stays
    taken-port      a hub whose port is taken: few lines, and it serves as soon as the port is free
    wrong-address   a hub whose ADDRESS is none of this machine: few lines, and it waits
    renamed-log     the log of a running node is renamed: it ends
    renamed-both    its log and the log's lock are renamed: likewise
    replaced-log    a copy of it is put in its place: it ends
    new-log         a node without a log says where it makes one
    cut-log         its log is cut to nothing: it ends, and the log isn't one that it starts from again
    values-as-log   LOG, or another file, is the file of the values of blocks: refused, and nothing is written
    next-era        an era ends at its height, and the next one begins as docs/OPERATING.md says
    full-disk       the disk fills up in the middle of an entry (as root): the log stays whole

Without a KIND all are tried. The status is 0 where each came out as it says. It stands outside the gate and proves
nothing."""

import argparse
import contextlib
import dataclasses
import os
import shutil
import socket
import subprocess
import sys
import tempfile
import threading
import time
from pathlib import Path

sys.path.insert(0, str(Path(__file__).resolve().parents[1]))

from rejoin.main import free_port  # noqa: E402
from trials.peer_tries import HELLO_KIND, Network, await_listener, run_all  # noqa: E402

# A second of a node that can't work may write so many lines, and the hub of an idle network may take this share.
LINES_A_SECOND, IDLE_SHARE = 40, 0.05
SLOW_NAMES = """
#include <netdb.h>
#include <unistd.h>
int getaddrinfo(const char *host, const char *port, const struct addrinfo *hints, struct addrinfo **found) {
    sleep(4);
    return EAI_AGAIN;
}
"""


@dataclasses.dataclass
class Seen:
    """What a kind of trial came to."""

    is_well: bool
    text: str


class Trial:
    """A trial: the program, how long a part of it takes, and a folder of its own."""

    def __init__(self, program, seconds, room):
        self.program, self.seconds, self.room, self.networks = program, seconds, room, 0

    @contextlib.contextmanager
    def network(self, validators=3, exponent=8, **settings):
        """A hub that serves, and settings and keys for so many validators, none of which runs yet."""
        self.networks += 1
        network = Network(self.room / f"network-{self.networks}", self.program, validators, exponent, **settings)
        try:
            yield network
        finally:
            network.stop()

    def run(self, network, seconds=None):
        network.run_for(self.seconds if seconds is None else seconds)


def processor_seconds(process):
    """How many seconds of a processor a process has taken."""
    words = Path(f"/proc/{process.pid}/stat").read_text(encoding="ascii").rpartition(")")[2].split()
    return (int(words[11]) + int(words[12])) / os.sysconf("SC_CLK_TCK")


def output(network, name, file="out"):
    return (network.room / name / file).read_text(encoding="utf-8", errors="replace")


def lines_of(network, name):
    return output(network, name).count("\n")


def is_running(network, name):
    return network.nodes[name].poll() is None


def ends_within(network, name, seconds):
    """The status with which a node ends, or none where it doesn't."""
    try:
        return network.nodes[name].wait(seconds)
    except subprocess.TimeoutExpired:
        return None


@contextlib.contextmanager
def peer_that(speaks):
    """The address of a peer that does this with each connection, in a thread of its own."""
    with socket.create_server(("127.0.0.1", 0)) as door:

        def serve():
            with contextlib.suppress(OSError):
                while True:
                    threading.Thread(target=speak, args=(door.accept()[0],), daemon=True).start()

        def speak(link):
            with link, contextlib.suppress(OSError):
                speaks(link)

        threading.Thread(target=serve, daemon=True).start()
        yield f"127.0.0.1:{door.getsockname()[1]}"


def framed(body):
    return len(body).to_bytes(4) + body


# ---- a hub that is down


def few_lines(trial, *peers):
    """A validator that reaches none of these peers writes little and takes little of a processor."""
    with trial.network() as network:
        network.validate(0, *peers)
        trial.run(network)
        lines, taken = lines_of(network, "v0"), processor_seconds(network.nodes["v0"])
        pace = lines / trial.seconds
        text = f"{pace:.0f} lines and {taken / trial.seconds:.3f} processor seconds a second"
        return Seen(pace <= LINES_A_SECOND and is_running(network, "v0"), text)


def hub_down(trial):
    return few_lines(trial, f"127.0.0.1:{free_port()}")


def hub_at_rest(trial):
    with peer_that(lambda link: link.recv(1) and time.sleep(60)) as address:
        return few_lines(trial, address)


def idle_hub(trial):
    # Rounds of 65 seconds: the few units of one are made at its beginning.
    with trial.network(exponent=16, exponents=[16, 16]) as network:
        for number in range(3):
            network.validate(number, network.address)
        trial.run(network, 3)
        before = processor_seconds(network.nodes["hub"])
        trial.run(network)
        share = (processor_seconds(network.nodes["hub"]) - before) / trial.seconds
        # A hub whose sessions are used up is another process, whose time begins anew.
        text = f"the hub takes {100 * share:.1f} % of a processor, and was started again {network.restarts} times"
        return Seen(share <= IDLE_SHARE and network.restarts == 0, text)


# ---- the journal's limit


def full_journal(trial):
    with trial.network(records=200) as network:
        for number in range(3):
            network.validate(number, network.address)
        until = time.monotonic() + 60 + 4 * trial.seconds
        while time.monotonic() < until and "all 200 entries" not in output(network, "v0", "err"):
            trial.run(network, 0.2)
        said = {
            name: [line for line in output(network, name, "err").splitlines() if "entries are used" in line]
            for name in ("hub", "v0")
        }
        return Seen(all(len(lines) == 3 for lines in said.values()), "; ".join(said["v0"]) or "nothing was said")


# ---- names


def beside_a_good_one(trial, address, environment=None):
    """How many units a validator makes with this second PEER, beside one without it at the same time."""
    with trial.network(validators=1, exponent=6) as network, trial.network(validators=1, exponent=6) as alone:
        old = dict(os.environ)
        os.environ.update(environment or {})
        for each, peers in ((network, (address,)), (alone, ())):
            each.validate(0, each.address, *peers)
        os.environ.clear()
        os.environ.update(old)
        run_all((network, alone), 3 * trial.seconds)
        made = [each.lines("v0", "made ") for each in (network, alone)]
    return Seen(made[0] * 3 >= made[1] * 2, f"{made[0]} units, and {made[1]} without it")


def lost_name(trial):
    return beside_a_good_one(trial, "no-such-host.invalid:7401")


def slow_name(trial):
    library = trial.room / "slow.so"
    (trial.room / "slow.c").write_text(SLOW_NAMES, encoding="ascii")
    words = ["cc", "-shared", "-fPIC", "-o", library, trial.room / "slow.c"]
    if not shutil.which("cc") or subprocess.run(words, check=False).returncode:
        return Seen(True, "not tried: there is no C compiler")
    # The first two dials are waited for; then it rests.
    trial.seconds = max(trial.seconds, 20)
    return beside_a_good_one(trial, "no-such-host.invalid:7401", {"LD_PRELOAD": str(library)})


# ---- logs that aren't what was written


def network_log(trial):
    """The log of a validator after a while, and its folder, with nobody running."""
    with trial.network() as network:
        for number in range(3):
            network.validate(number, network.address)
        trial.run(network, 4)
    folder = network.room / "v0"
    done = subprocess.run(
        [trial.program, "mend", "node.log", "whole.log"], cwd=folder, capture_output=True, check=False
    )
    assert done.returncode == 0, done
    (folder / "whole.log").rename(folder / "node.log")
    return network, folder


def refusal(trial, network, folder):
    """A start of validator 0 is refused as that of a log that another process has, with the place of the entry."""
    before = (folder / "node.log").read_bytes()
    (folder / "out").unlink()
    (folder / "err").unlink()
    network.validate(0, network.address)
    status = ends_within(network, "v0", 10)
    network.stop()
    told, text = output(network, "v0", "err"), output(network, "v0").strip()
    is_well = status == 4 and "isn't signed by the keys" in told and before == (folder / "node.log").read_bytes()
    return Seen(is_well and text == "read fault", f"status {status}; {text[-40:]!r}; {told.splitlines()[:1]}")


def zeroed_entry(trial):
    network, folder = network_log(trial)
    data = (folder / "node.log").read_bytes()
    (folder / "node.log").write_bytes(data[:-32] + bytes(32))
    return refusal(trial, network, folder)


def wrong_key(trial):
    network, folder = network_log(trial)
    lines = (folder / "keys").read_text(encoding="ascii").splitlines()
    (folder / "keys").write_text("\n".join(["0" * 64, *lines[1:]]) + "\n", encoding="ascii")
    return refusal(trial, network, folder)


# ---- vertices that aren't signed

# An endorsement of a unit that nobody has, whose signature is zeros; and what who meets says before its vertices.
UNSIGNED = b"\x02\x03" + bytes(32 + 4 + 32)
SUMMARY_OF_THREE, NOBODY_TORN, DONE = b"\x03" + bytes([0, 0, 0, 3, 0, 0, 0]), b"\x04" + bytes(4), b"\x05"


def dial_and_say(port, said):
    with socket.create_connection(("127.0.0.1", port), 10) as link:
        link.sendall(said)
        link.shutdown(socket.SHUT_WR)
        read_on(link)


def read_on(link):
    link.settimeout(10)
    while link.recv(65536):
        pass


def told_of(network, name):
    """What a node told of such vertices: who sent one, and how many there were."""
    lines, part = output(network, name, "err").splitlines(), ": a vertex isn't signed by the keys, and is refused ("
    return [tuple(line.split(part)) for line in lines if part in line]


def unsigned_vertex(trial):
    with trial.network() as network:
        hello, vertices = framed(HELLO_KIND + network.instance()), framed(UNSIGNED) * 3
        meeting = hello + framed(SUMMARY_OF_THREE) + framed(NOBODY_TORN) + vertices + framed(DONE)
        dial_and_say(network.port, hello + vertices)
        port = free_port()
        network.start("host", "host", f"127.0.0.1:{port}", 2)
        await_listener(port)
        dial_and_say(port, meeting)
        peers = {"run": hello + vertices, "meet": meeting}
        for name, said in peers.items():
            with peer_that(lambda link, said=said: (link.sendall(said), read_on(link))) as address:
                peers[name] = address
                network.start(name, name, *((0, 2, address) if name == "run" else (address,)))
                ends_within(network, name, 20)
        # Another one a minute later is told again, with the three from before.
        trial.run(network, 61)
        dial_and_say(network.port, hello + framed(UNSIGNED))
        trial.run(network, 1)
        first, second = [("highway: 127.0.0.1", "1 so far)")], [("highway: 127.0.0.1", "4 so far)")]
        wanted = {"hub": first + second, "host": first}
        wanted |= {name: [(f"highway: {address}", "1 so far)")] for name, address in peers.items()}
        seen = {name: told_of(network, name) for name in wanted}
        return Seen(seen == wanted, f"{seen}")


# ---- peers


def with_peer(trial, speaks):
    """A validator with a good PEER and one that speaks so, beside one without it."""
    with peer_that(speaks) as address:
        return beside_a_good_one(trial, address)


def hello_of(trial):
    with trial.network(validators=1, exponent=6) as network:
        trial.run(network, 0.5)
        return framed(HELLO_KIND + network.instance())


def talking_peer(trial):
    hello = hello_of(trial)

    def speaks(link):
        link.recv(64)
        link.sendall(hello)
        # A frame of a megabyte, byte by byte at 80 KB a second: it moves enough, and never ends.
        link.sendall((1 << 20).to_bytes(4) + b"\x02")
        while True:
            link.sendall(bytes(8192))
            time.sleep(0.1)

    trial.seconds = max(trial.seconds, 30)
    return with_peer(trial, speaks)


def parting_peer(trial):
    hello = hello_of(trial)

    def speaks(link):
        link.recv(64)
        link.sendall(hello + framed(b"\x05"))
        time.sleep(60)

    return with_peer(trial, speaks)


# ---- a hub that can't listen


def wrong_address(trial):
    with trial.network() as network:
        # An address of documents, which no machine has, and one without a port.
        for name, address in (("far", "192.0.2.1:7401"), ("portless", "127.0.0.1")):
            network.start(name, "serve", address, 65536)
        trial.run(network)
        seen = {
            name: (is_running(network, name), lines_of(network, name), output(network, name, "err").count("\n"))
            for name in ("far", "portless")
        }
        # A new log is told, and why it can't listen.
        is_well = all(runs and lines <= 20 and told <= 2 for runs, lines, told in seen.values())
        return Seen(is_well, f"whether it runs, lines, and lines on standard error: {seen}")


def taken_port(trial):
    with trial.network() as network:
        port = free_port()
        with socket.socket() as door:
            door.bind(("127.0.0.1", port))
            door.listen()
            network.start("late", "serve", f"127.0.0.1:{port}", 65536)
            trial.run(network)
            lines, waits = lines_of(network, "late"), is_running(network, "late")
        serves = False
        if waits:
            with contextlib.suppress(AssertionError, OSError):
                await_listener(port)
                serves = True
        told = output(network, "late", "err").count("\n")
        return Seen(
            waits and serves and lines <= 20 and told <= 3,
            f"{lines} lines, {told} on standard error; {'serves' if serves else 'never serves'} once it is free",
        )


# ---- files under a running node


def log_moved(trial, moves):
    with trial.network() as network:
        for number in range(3):
            network.validate(number, network.address)
        trial.run(network, 2)
        moves(network.room / "v0" / "node.log")
        status = ends_within(network, "v0", trial.seconds)
        told = output(network, "v0", "err").strip().splitlines()[-1:]
        return Seen(status == 5, f"status {status}; {told}")


def renamed_log(trial):
    return log_moved(trial, lambda log: log.rename(log.with_suffix(".old")))


def renamed_both(trial):
    def moves(log):
        for file in (log, log.with_name(f"{log.name}.lock")):
            file.rename(f"{file}.old")

    return log_moved(trial, moves)


def cut_log(trial):
    seen = log_moved(trial, lambda log: os.truncate(log, 0))
    log = trial.room / "network-1" / "v0" / "node.log"
    words = [trial.program, "replay", log]
    done = subprocess.run(words, cwd=trial.room, capture_output=True, text=True, check=False)
    is_well = seen.is_well and done.returncode == 2 and log.stat().st_size == 0
    return Seen(is_well, f"{seen.text}; then {done.stdout.strip()!r}")


def replaced_log(trial):
    def moves(log):
        shutil.copy(log, log.with_suffix(".new"))
        log.with_suffix(".new").rename(log)

    return log_moved(trial, moves)


def new_log(trial):
    with trial.network() as network:
        network.validate(0, network.address)
        trial.run(network, 1)
        line = f"highway: node.log: makes a new log: {(network.room / 'v0' / 'node.log').resolve()}"
        told = output(network, "v0", "err").splitlines()
        return Seen(told.count(line) == 1, f"{told[:1]}")


def values_as_log(trial):
    with trial.network() as network:
        folder = network.room / "values"
        folder.mkdir()
        for file in ("settings.json", "keys"):
            shutil.copy(network.room / file, folder)
        blocks = folder / "highway.blocks"
        names = (blocks.name, f"./{blocks.name}", str(blocks))
        runs = [["run", "settings.json", "keys", name, "0", "3", network.address] for name in names]
        runs.append(["mend", network.room / "hub" / "node.log", blocks.name])
        seen = [refused_words(trial, words, folder) + (blocks.exists(),) for words in runs]
        is_well = all(it == (4, "read fault", False) for it in seen)
        # As a file that is read: the settings stand there.
        shutil.copy(network.room / "settings.json", blocks)
        before = blocks.read_bytes()
        for words in (["run", blocks.name, "keys", "new.log", "0", "3", network.address], ["replay", blocks.name]):
            seen.append(refused_words(trial, words, folder))
            is_well = is_well and seen[-1] == (4, "read fault")
        return Seen(is_well and before == blocks.read_bytes() and not (folder / "new.log").exists(), f"{seen}")


def refused_words(trial, words, folder):
    """The status, and what is printed."""
    done = subprocess.run([trial.program, *words], cwd=folder, capture_output=True, text=True, check=False)
    return done.returncode, done.stdout.strip()


def next_era(trial):
    tools, finals = Path(__file__).resolve().parents[1], []
    with trial.network(end=6) as first, trial.network() as second:
        for number in range(3):
            first.validate(number, first.address)
        until = time.monotonic() + 60 + 4 * trial.seconds
        words = [
            sys.executable,
            tools / "rejoin" / "next_era.py",
            trial.program,
            first.room / "settings.json",
            first.room / "v0" / "node.log",
            second.room / "next.json",
        ]
        while time.monotonic() < until and subprocess.run(words, capture_output=True, check=False).returncode:
            trial.run(first, 0.5)
        first.stop()
        second.nodes.pop("hub").kill()
        shutil.rmtree(second.room / "hub")
        (second.room / "next.json").rename(second.room / "settings.json")
        second.serve()
        await_listener(second.port)
        for number in range(3):
            second.validate(number, second.address)
        trial.run(second)
        second.stop()
        logs = []
        for network in (first, second):
            logs.append(str(network.room / "whole.log"))
            subprocess.run(
                [trial.program, "mend", network.room / "v0" / "node.log", logs[-1]], check=True, capture_output=True
            )
        done = subprocess.run(
            [trial.program, "eras", *logs], cwd=trial.room, capture_output=True, text=True, check=False
        )
        for part in done.stdout.split("era 1"):
            finals.append(sum(line.startswith("final ") for line in part.splitlines()))
        return Seen(
            done.returncode == 0 and len(finals) == 2 and min(finals) > 1,
            f"eras: status {done.returncode}; final blocks of the two: {finals}",
        )


def full_disk(trial):
    disk = trial.room / "disk"
    disk.mkdir()
    if (
        os.geteuid()
        or subprocess.run(["mount", "-t", "tmpfs", "-o", "size=64k", "tmpfs", disk], check=False).returncode
    ):
        return Seen(True, "not tried: a small disk can't be mounted")
    try:
        with trial.network() as network:
            for number in (1, 2):
                network.validate(number, network.address)
            for file in ("settings.json", "keys"):
                shutil.copy(network.room / file, disk)
            words = [trial.program, "run", "settings.json", "keys", "node.log", "0", "1000000", network.address]
            node = subprocess.Popen(words, cwd=disk, stdout=subprocess.DEVNULL, stderr=subprocess.PIPE, text=True)
            network.nodes["v0"] = node
            _, told = node.communicate(timeout=120)
            done = subprocess.run(
                [trial.program, "replay", disk / "node.log"],
                cwd=trial.room,
                capture_output=True,
                check=False,
                text=True,
            )
            return Seen(
                node.returncode == 5 and done.returncode == 0,
                f"status {node.returncode}; replay: {done.returncode} {done.stdout.splitlines()[:1]}; {told.strip()!r}",
            )
    finally:
        subprocess.run(["umount", disk], check=False)


KINDS = {
    kind.__name__.replace("_", "-"): kind
    for kind in (
        hub_down,
        hub_at_rest,
        idle_hub,
        full_journal,
        lost_name,
        slow_name,
        zeroed_entry,
        wrong_key,
        unsigned_vertex,
        talking_peer,
        parting_peer,
        wrong_address,
        taken_port,
        renamed_log,
        renamed_both,
        replaced_log,
        cut_log,
        new_log,
        values_as_log,
        next_era,
        full_disk,
    )
}


def main():
    asked = argparse.ArgumentParser(description=__doc__, formatter_class=argparse.RawDescriptionHelpFormatter)
    asked.add_argument("program")
    asked.add_argument("kinds", nargs="*", metavar="KIND", choices=[*KINDS, []])
    asked.add_argument("--seconds", type=float, default=8)
    asked = asked.parse_args()
    program, failed = str(Path(asked.program).resolve()), 0
    for name in asked.kinds or KINDS:
        with tempfile.TemporaryDirectory(prefix="highway-") as room:
            try:
                seen = KINDS[name](Trial(program, asked.seconds, Path(room)))
            except (SystemExit, OSError, subprocess.SubprocessError) as error:
                seen = Seen(False, str(error))
        failed += not seen.is_well
        print(f"{name}: {'as it should be' if seen.is_well else 'NOT AS IT SHOULD BE'}: {seen.text}", flush=True)
    return 1 if failed else 0


if __name__ == "__main__":
    sys.exit(main())
