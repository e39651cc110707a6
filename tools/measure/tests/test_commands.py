"""Tests of measure/commands.py beside programs of these tests."""
import contextlib
import io
import pathlib
import socket
import tempfile
import threading
import unittest
from unittest import mock

from measure import commands
from lens.log import StandIn, is_signed, read_log
from measure.replay import made

FEW = "rounds --validators 3 --rounds 2"


def said_by(words):
    """The status, standard output and standard error of these words."""
    out, err = io.StringIO(), io.StringIO()
    with contextlib.redirect_stdout(out), contextlib.redirect_stderr(err):
        try:
            status = commands.main(words)
        except SystemExit as ended:
            status = ended.code
    return status, out.getvalue(), err.getvalue()


class Measured(unittest.TestCase):
    """What is told of a program."""

    def setUp(self):
        room = tempfile.TemporaryDirectory()
        self.addCleanup(room.cleanup)
        self.room = pathlib.Path(room.name)
        for name in ("EVEN", "WIDE", "SCRIPTED", "SERVED"):
            patched = mock.patch.object(commands, name, FEW)
            patched.start()
            self.addCleanup(patched.stop)

    def program(self, name, body):
        """A program of that body."""
        path = self.room / name
        path.write_text(f"#!/bin/sh\n{body}\n", encoding="utf-8")
        path.chmod(0o755)
        return str(path)

    def words(self, *words):
        """These words, few runs, and the logs in the room."""
        return [*words, "--runs", "2", "--logs", str(self.room / "logs")]

    def test_two_programs(self):
        good = self.program("good", "exit 0")
        status, out, _ = said_by([*self.words(good, "--beside", good), "explain", "audit", "script", "gen", "sim"])
        self.assertEqual(status, 0)
        self.assertEqual(
            [line.split()[1] for line in out.splitlines()[2:]], ["explain", "audit", "script", "gen", "sim"]
        )

    def test_one_program(self):
        status, out, _ = said_by([*self.words(self.program("good", "exit 0")), "gen"])
        self.assertEqual(status, 0)
        self.assertRegex(out, r"\| gen \| gen 10 3000 \| \d\.\d{3} \|  \|  \|\n\Z")

    def test_without_a_variable(self):
        good = self.program("good", f"echo \"${{SHADE-none}}\" >>{self.room / 'shades'}")
        with mock.patch.dict("os.environ", {"SHADE": "plain"}):
            status, out, _ = said_by([*self.words(good, "--beside", good, "--without", "SHADE"), "gen"])
        self.assertEqual(status, 0)
        self.assertIn("| row | of | this | beside | ratio | without SHADE | ratio |", out)
        self.assertEqual(len(out.splitlines()[2].split("|")), 9)
        self.assertEqual((self.room / "shades").read_text(encoding="utf-8").split(), ["plain", "plain", "none"] * 2)

    def test_a_run_that_fails(self):
        status, _, err = said_by([*self.words(self.program("bad", "echo no >&2; exit 8")), "gen"])
        self.assertEqual(status, 2)
        self.assertRegex(err, r"bad gen 10 3000: status 8: no")

    def test_memory(self):
        status, out, _ = said_by([*self.words(self.program("good", "exit 0")), "memory-10"])
        self.assertEqual(status, 0)
        self.assertIn(f"| memory-10 | {FEW} |", out)

    def test_a_version_is_made_once(self):
        log = 'echo "$@" >>' + str(self.room / "calls") + '; test "$1" = replay || : >"$3"'
        status, _, _ = said_by([*self.words(self.program("good", log)), "version2-wide"])
        calls = (self.room / "calls").read_text(encoding="utf-8").split("\n")
        self.assertEqual(status, 0)
        self.assertEqual([call.split()[0] for call in calls if call], ["migrate"] + ["replay"] * 4)

    def test_wrong_words(self):
        good = self.program("good", "exit 0")
        for words in ([], ["no-such-program"], [good, "no-row"], [good, "--without", "SHADE"]):
            self.assertEqual(said_by(words)[0], 2)

    def test_the_rows(self):
        status, out, _ = said_by(["--list"])
        self.assertEqual(status, 0)
        self.assertEqual(out.split(), list(commands.ROWS))

    def test_the_script_has_each_unit(self):
        log = read_log(made(self.room / "logs", FEW).path)
        lines = "".join(commands.script_of(log)).splitlines()
        self.assertEqual(lines[0], "weights 1 1 1")
        self.assertEqual(sum(line.startswith("unit ") for line in lines), len(log.entries))
        self.assertEqual([line for line in lines if line.startswith("unit u0 ")][0].split()[-2], "block")

    def test_each_frame_is_signed(self):
        log = read_log(made(self.room / "logs", FEW).path)
        frames = list(commands.signed_frames(log))
        self.assertEqual([frame[4:5] for frame in frames], [b"\1"] + [b"\2"] * len(log.entries) + [b"\5"])
        self.assertTrue(all(len(frame) == 4 + int.from_bytes(frame[:4]) for frame in frames))
        self.assertFalse(is_signed(log.entries[0].vertex, StandIn(commands.keys_of(3))))

    def test_a_node_that_does_not_listen(self):
        status, _, err = said_by([*self.words(self.program("dead", "exit 5")), "serve"])
        self.assertEqual(status, 2)
        self.assertEqual(err, "serve: it doesn't listen\n")

    def test_a_session(self):
        with socket.socket() as listener:
            listener.bind(("127.0.0.1", 0))
            listener.listen()
            taken = []

            def take():
                link, _ = listener.accept()
                with link:
                    taken.append(link.recv(1 << 16))

            taker = threading.Thread(target=take)
            taker.start()
            log = read_log(made(self.room / "logs", FEW).path)
            with mock.patch.object(commands, "free_port", lambda: listener.getsockname()[1]):
                program = self.program("serves", f"sleep 0.2; echo units {len(log.entries)} parked 0")
                took = commands.served(program, self.room / "node", log, b"frames")
            taker.join()
        self.assertEqual(taken, [b"frames"])
        self.assertGreaterEqual(took, 0)
        self.assertIn('"weights": [1, 1, 1]', (self.room / "node" / "settings.json").read_text(encoding="utf-8"))


if __name__ == "__main__":
    unittest.main()
