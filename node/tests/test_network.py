"""Networks of nodes on this machine: `python3 -B -m unittest discover --start-directory node/tests`, once the node is built."""

import json
import random
import signal
import socket
import socketserver
import statistics
import threading
import time
import unittest

from network import Network
from relay import Relays


def chains(network, numbers):
    """The final blocks that each of these validators shows, by height."""
    shown = {}
    for number in numbers:
        shown[number] = {block["height"]: block["block"] for block in network.view(number)["blocks"]}
    return shown


def latencies(network):
    """The median latency to finality at each node, in rounds."""
    told = [network.status(number) for number in range(network.count)]
    return [one["latency_median"] / one["round_milliseconds"] for one in told]


class Case(unittest.TestCase):
    """A test with a network that is closed at its end."""

    def network(self, count, *wishes):
        network = Network(count, *wishes)
        self.addCleanup(network.close)
        return network

    def run_for(self, network, seconds):
        """Lets it run; how many blocks each node made final in that time."""
        network.wait_until(lambda: all(network.status(one)["decided"] for one in network.running), 60, "a final block")
        before = {one: network.status(one)["decided"] for one in network.running}
        time.sleep(seconds)
        return [network.status(one)["decided"] - before[one] for one in network.running]

    def assert_one_chain(self, network):
        """No two nodes show different blocks at one height."""
        first, *others = chains(network, list(network.running)).values()
        for other in others:
            for height in first.keys() & other.keys():
                self.assertEqual(first[height], other[height], height)

    def assert_agreement(self, network):
        for answer in network.audit():
            self.assertRegex(answer, r"^agree \d+$")


class Ordinary(Case):
    """Networks in which all is well, or as well as a network is."""

    def test_four_for_twenty_seconds(self):
        network = self.network(4, "--exponents", "9,14")
        network.start_all()
        made = self.run_for(network, 20)
        print(f"four, rounds of 512 ms, 20 s: {made} final blocks, latency {latencies(network)} rounds")
        self.assertGreaterEqual(min(made), 30)
        self.assert_one_chain(network)
        self.assertEqual(network.get(0, "/healthz"), b"blocks become final\n")
        self.assertIn(b"highway_final_blocks", network.get(0, "/metrics"))
        for number in range(4):
            took, status = network.end(number)
            self.assertEqual(status, 0)
            self.assertLess(took, 2)
        self.assert_agreement(network)

    def test_a_delay_of_fifty_milliseconds_each_way(self):
        network = self.network(4, "--exponents", "10,14")
        relays = Relays(0.05)
        self.addCleanup(relays.close)
        for me in range(4):
            routes = ""
            for peer in set(range(4)) - {me}:
                at = [relays.add(network.places.listens(peer)[1] + one) for one in (0, 1)]
                routes += f'[[route]]\nvalidator = {peer}\nvertices = "tcp://127.0.0.1:{at[0]}"\n'
                routes += f'requests = "tcp://127.0.0.1:{at[1]}"\n'
            network.set(me, routes)
        network.start_all()
        made = self.run_for(network, 20)
        print(f"four, 50 ms each way, rounds of 1,024 ms, 20 s: {made} final blocks, latency {latencies(network)} rounds")
        self.assertGreaterEqual(min(made), 17)
        self.assertLess(statistics.median(latencies(network)), 1.5)
        self.assert_one_chain(network)

    def test_nodes_that_are_killed(self):
        network = self.network(4, "--exponents", "8,14")
        network.start_all()
        self.run_for(network, 1)
        random.seed(1)
        for _ in range(6):
            number = random.randrange(4)
            network.end(number, signal.SIGKILL)
            time.sleep(0.5)
            network.start(number)
            before = network.status((number + 1) % 4)["decided"]
            network.wait_until(lambda: network.status(number)["decided"] > before + 2, 60, f"{number} is back")
        self.assertEqual([network.status(number)["faulty"] for number in range(4)], [[]] * 4)
        self.assert_one_chain(network)
        for number in range(4):
            network.end(number)
        self.assert_agreement(network)


class Hostile(Case):
    """Networks in which somebody does what he shouldn't."""

    def test_a_lost_store_does_no_harm_if_peers_are_heard(self):
        network = self.network(4, "--exponents", "8,14")
        network.start_all()
        self.run_for(network, 2)
        network.end(3, signal.SIGKILL)
        for part in network.folder.glob("3.sqlite*"):
            part.unlink()
        network.start(3)
        network.wait_until(lambda: network.status(3)["own_units"] > 4, 60, "3 makes units again")
        self.run_for(network, 1)
        self.assertEqual([network.status(number)["faulty"] for number in range(4)], [[]] * 4)

    def test_an_equivocator_is_named_with_its_units(self):
        network = self.network(4, "--exponents", "8,14", "--threshold", "1")
        network.start_all()
        self.run_for(network, 2)
        network.end(3, signal.SIGKILL)
        for part in network.folder.glob("3.sqlite*"):
            part.unlink()
        nowhere = "".join(
            f'[[route]]\nvalidator = {peer}\nvertices = "tcp://127.0.0.1:1"\nrequests = "tcp://127.0.0.1:1"\n'
            for peer in range(3))
        network.set(3, nowhere)
        network.start(3, "--without", "0,1,2")
        for number in range(3):
            network.wait_until(lambda: network.status(number)["faulty"] == [3], 60, f"{number} knows it")
            culprit = network.view(number)["culprits"][0]
            self.assertEqual((culprit["validator"], len(set(culprit["units"]))), (3, 2))
            self.assertGreater(len(network.get(number, "/evidence/3")), 200)
        network.end(3, signal.SIGKILL)
        before = network.status(0)["decided"]
        network.wait_until(lambda: network.status(0)["decided"] > before + 5, 30, "blocks become final")

    def test_strangers_change_nothing(self):
        network = self.network(4, "--exponents", "9,14")
        network.start_all()
        self.run_for(network, 1)
        open_ones = []
        for place in range(200):
            stranger = socket.create_connection(("127.0.0.1", network.places.listens(place % 4)[1] + place // 4 % 2))
            self.addCleanup(stranger.close)
            if place % 2:
                stranger.sendall(random.randbytes(1000))
            open_ones.append(stranger)
        made = self.run_for(network, 10)
        print(f"200 strangers, rounds of 512 ms, 10 s: {made} final blocks, latency {latencies(network)} rounds")
        self.assertGreaterEqual(min(made), 17)


class Speaker(socketserver.StreamRequestHandler):
    """An application in another process: it answers each line, and keeps the calls."""

    def handle(self):
        for line in self.rfile:
            (name, said), = json.loads(line).items()
            self.server.calls.append((name, said))
            answers = {"propose": {"value": "01ff"}, "is_valid": {"valid": said.get("value") == "01ff"}, "decided": {}}
            self.wfile.write(json.dumps(answers[name]).encode() + b"\n")


class Applications(Case):
    """An application behind a socket makes the values, judges them, and hears what is final."""

    def speaker(self, path):
        server = socketserver.ThreadingUnixStreamServer(str(path), Speaker)
        server.daemon_threads = True
        server.calls = []
        threading.Thread(target=server.serve_forever, daemon=True).start()
        self.addCleanup(server.server_close)
        self.addCleanup(server.shutdown)
        return server

    def test_a_process_behind_a_socket(self):
        network = self.network(2, "--exponents", "8,14")
        servers = [self.speaker(network.folder / f"{number}.socket") for number in range(2)]
        for number in range(2):
            network.set(number, f'application = {{ socket = "{number}.socket" }}\n')
        network.start_all()
        network.wait_until(lambda: network.status(0)["decided"] > 6, 60, "blocks of the application")
        for number in range(2):
            network.end(number)
        for server in servers:
            decided = [said for name, said in server.calls if name == "decided"]
            self.assertEqual([said["height"] for said in decided], list(range(len(decided))))
            self.assertEqual({said["value"] for said in decided}, {"01ff"})
            self.assertLessEqual({"propose", "is_valid", "decided"}, {name for name, _ in server.calls})


class Words(Case):
    """What is wrong is said with its place."""

    def test_bad_settings_say_what_and_where(self):
        network = self.network(1)
        settings = network.settings(0)
        text = settings.read_text()
        settings.write_text(text + "pgae = 3\n")
        self.assertRegex(network.run("run", settings, status=1), r"0\.toml: unknown field `pgae`")
        settings.write_text(text)
        genesis = network.folder / "genesis.toml"
        told = genesis.read_text()
        genesis.write_text(told.replace("threshold = 0", "threshold = 1"))
        self.assertRegex(network.run("run", settings, status=1), r"genesis\.toml: .*threshold")
        genesis.write_text(told)
        (network.folder / "0.key").chmod(0o644)
        self.assertRegex(network.run("run", settings, status=1), r"0\.key: others can read it \(mode 644\)")

    def test_one_process_has_a_store(self):
        network = self.network(1, "--exponents", "8,14")
        network.start(0)
        self.run_for(network, 0)
        self.assertIn("another process has this store", network.run("run", network.settings(0), status=1))


if __name__ == "__main__":
    unittest.main()
