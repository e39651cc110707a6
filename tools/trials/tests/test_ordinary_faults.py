"""Tests of ordinary_faults.py, in which a fake program plays the nodes."""

import contextlib
import io
import tempfile
import unittest
from pathlib import Path
from unittest import mock

from trials import ordinary_faults
from trials.fake_program import fake_program

# A hub listens; what a validator does is a test's.
HUB = """import socket
host, port = words[3].rsplit(':', 1)
door = socket.create_server((host, int(port)))
write(words[2], b'HWLG' + bytes(200))
time.sleep(60)
"""
WAITS = "time.sleep(60)"
# A hub that can't listen does what a test says.
LISTENS_OR = """import socket
host, _, port = words[3].rpartition(':')
try:
    door = socket.create_server((host, int(port)))
    write(words[2], b'HWLG' + bytes(200))
    time.sleep(60)
except (OSError, ValueError):
    {}
"""
# Who serves and who dials hears all that the other says, and says on standard error what a test says.
HEARS = f"""import socket
host, port = words[3].rsplit(':', 1)
door, count = socket.create_server((host, int(port))), 0
write(words[2], b'HWLG' + bytes(200))
while True:
    with door.accept()[0] as link:
        said = b''.join(iter(lambda: link.recv(65536), b''))
    came = said.count({ordinary_faults.UNSIGNED!r})
    if came:
        told, count = count + 1 if count == 0 else count + came, count + came
        print({{}}, file=sys.stderr, flush=True)
"""
DIALS = """import socket
host, port = words[-1].rsplit(':', 1)
with socket.create_connection((host, int(port))) as link:
    link.shutdown(socket.SHUT_WR)
    while link.recv(65536): pass
who, told = words[-1], 1
print({}, file=sys.stderr)
"""
TELLS = """f"highway: {}: a vertex isn't signed by the keys, and is refused ({{told}} so far)\""""


class Kinds(unittest.TestCase):
    """What is said of a program that does or doesn't do as it should."""

    def setUp(self):
        folder = tempfile.TemporaryDirectory()
        self.addCleanup(folder.cleanup)
        self.folder = Path(folder.name)

    def seen(self, kind, seconds=0.3, **commands):
        program = fake_program(self.folder, **{"serve": HUB} | commands)
        with tempfile.TemporaryDirectory() as room:
            return ordinary_faults.KINDS[kind](ordinary_faults.Trial(program, seconds, Path(room)))

    def test_a_validator_that_spins_is_seen(self):
        spins = "while True: print('peer 0 link fault')"
        self.assertFalse(self.seen("hub-down", run=spins).is_well)
        self.assertTrue(self.seen("hub-down", run=WAITS).is_well)
        self.assertFalse(self.seen("hub-down", run="sys.exit(6)").is_well)

    def test_a_new_log_has_to_be_told_with_its_whole_path(self):
        tells = "print(f'highway: node.log: makes a new log: {}', file=sys.stderr); time.sleep(60)"
        self.assertTrue(self.seen("new-log", 3, run=tells.format("{os.path.realpath(words[2])}")).is_well)
        for run in (WAITS, tells.format("node.log")):
            self.assertFalse(self.seen("new-log", run=run).is_well)

    def test_values_as_a_log_have_to_be_refused_before_a_byte_is_written(self):
        refuses = "print('read fault'); sys.exit(4)"
        nodes = {name: refuses for name in ("run", "mend", "replay")}
        self.assertTrue(self.seen("values-as-log", **nodes).is_well)
        for bad in (
            {"run": f"write(words[2], b'HWLG'); {refuses}"},
            {"run": "sys.exit(6)"},
            {"mend": f"write(words[1], b'HWLG'); {refuses}"},
            {"replay": "pass"},
        ):
            self.assertFalse(self.seen("values-as-log", **nodes | bad).is_well)

    def test_a_port_that_is_taken_has_to_be_waited_for(self):
        waits = (
            f"try:\n    {HUB.splitlines()[0]}\n"
            + """    host, port = words[3].rsplit(':', 1)
    while True:
        try:
            door = socket.create_server((host, int(port)))
            break
        except OSError:
            time.sleep(0.05)
finally:
    pass
time.sleep(60)
"""
        )
        self.assertTrue(self.seen("taken-port", serve=waits).is_well)
        self.assertFalse(self.seen("taken-port").is_well)

    def test_a_hub_that_can_not_listen_has_to_wait_and_say_little(self):
        self.assertTrue(self.seen("wrong-address", serve=LISTENS_OR.format(WAITS)).is_well)
        for instead in ("sys.exit(6)", "while True: print('session')"):
            self.assertFalse(self.seen("wrong-address", 2, serve=LISTENS_OR.format(instead)).is_well)

    def test_a_vertex_that_is_not_signed_has_to_be_told_once_by_each_kind(self):
        tells = [TELLS.format(who) for who in ("127.0.0.1", "{who}")]
        nodes = {
            name: HEARS.format(tells[0]) if name in ("serve", "host") else DIALS.format(tells[1])
            for name in ("serve", "host", "run", "meet")
        }
        with mock.patch.object(ordinary_faults.Trial, "run", lambda trial, network, seconds=None: network.run_for(0.3)):
            self.assertTrue(self.seen("unsigned-vertex", **nodes).is_well)
            for name in nodes:
                silent = HEARS.format("''") if name in ("serve", "host") else DIALS.format("''")
                self.assertFalse(self.seen("unsigned-vertex", **nodes | {name: silent}).is_well)

    def test_a_log_that_is_renamed_or_cut_has_to_end_the_node(self):
        makes = "write(words[2], b'HWLG'); write(words[2] + '.lock', b'')\n"
        ends, goes_on = makes + "while {}: time.sleep(0.02)\nsys.exit(5)", f"{makes}{WAITS}"
        is_there, is_whole = "os.path.exists(words[2])", "os.path.getsize(words[2])"
        refuses = "print('bad magic'); sys.exit(2)"
        with mock.patch.object(ordinary_faults.Trial, "run", lambda trial, network, seconds=None: network.run_for(1)):
            for kind, test in (("renamed-log", is_there), ("renamed-both", is_there), ("cut-log", is_whole)):
                self.assertTrue(self.seen(kind, 5, run=ends.format(test), replay=refuses).is_well)
                self.assertFalse(self.seen(kind, run=goes_on, replay=refuses).is_well)
            self.assertFalse(self.seen("cut-log", 5, run=ends.format(is_whole), replay="pass").is_well)


class Words(unittest.TestCase):
    def test_each_kind_is_told_and_a_wrong_one_is_refused(self):
        for kind in ordinary_faults.KINDS:
            self.assertIn(f"\n    {kind} ", ordinary_faults.__doc__)
        with mock.patch("sys.argv", ["ordinary_faults.py", "program", "no-such-kind"]):
            with contextlib.redirect_stderr(io.StringIO()), self.assertRaises(SystemExit):
                ordinary_faults.main()

    def test_the_status_is_that_of_the_kinds(self):
        for is_well in (True, False):
            seen = ordinary_faults.Seen(is_well, "text")
            with mock.patch("sys.argv", ["ordinary_faults.py", "program", "new-log"]), mock.patch.dict(
                ordinary_faults.KINDS, {"new-log": lambda trial: seen}
            ), contextlib.redirect_stdout(io.StringIO()) as out:
                self.assertEqual(ordinary_faults.main(), 0 if is_well else 1)
            self.assertIn("text", out.getvalue())


if __name__ == "__main__":
    unittest.main()
