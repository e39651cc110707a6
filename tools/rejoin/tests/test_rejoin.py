"""Tests of rejoin.py: python3 -m unittest discover -s tools. Meetings are tried where the program is built, or where
the environment variable HIGHWAY names it."""

import fcntl
import os
import shutil
import subprocess
import tempfile
import unittest
from pathlib import Path

from rejoin import main as rejoin
from lens.log import read_as_far, read_keys, read_log, spelled_log

ROOT = Path(__file__).resolve().parents[3]
DATA = ROOT / "crates" / "highway" / "data"
PROGRAM = Path(os.environ.get("HIGHWAY", ROOT / "crates" / "highway" / "out" / "highway"))
SIGNED = (DATA / "signed.hwlg").read_bytes()


class InFolder(unittest.TestCase):
    """A test with a folder of its own, and a log in it."""

    def setUp(self):
        folder = tempfile.TemporaryDirectory()
        self.addCleanup(folder.cleanup)
        self.folder = Path(folder.name)
        self.log = self.folder / "a.log"

    def put(self, data):
        self.log.write_bytes(data)

    def aside(self):
        return Path(f"{self.log}.before-1")

    def assert_refused(self, data, text):
        """`mend` refuses these bytes for this reason, and changes nothing."""
        self.put(data)
        with self.assertRaisesRegex(rejoin.Problem, text):
            rejoin.mend(self.log)
        self.assertEqual(self.log.read_bytes(), data)
        self.assertFalse(self.aside().exists())


class Mends(InFolder):
    def test_zeros_behind_a_whole_entry_are_cut(self):
        for count in (1, 5, 6, 4096):
            with self.subTest(count=count):
                self.setUp()
                self.put(SIGNED + bytes(count))
                rejoin.mend(self.log)
                self.assertEqual(self.log.read_bytes(), SIGNED)
                self.assertEqual(self.aside().read_bytes(), SIGNED + bytes(count))

    def test_zeros_behind_a_header_are_cut(self):
        header = spelled_log(read_log(DATA / "signed.hwlg").config, [])
        self.put(header + bytes(100))
        rejoin.mend(self.log)
        self.assertEqual(self.log.read_bytes(), header)

    def test_a_file_without_a_whole_header_is_moved_away(self):
        for data in (b"", bytes(4096), b"HW", b"HWLG", b"HWLG\2", SIGNED[:9], SIGNED[:40], SIGNED[:40] + bytes(60)):
            with self.subTest(data=data):
                self.setUp()
                self.put(data)
                rejoin.mend(self.log)
                self.assertFalse(self.log.exists())
                self.assertEqual(self.aside().read_bytes(), data)

    def test_a_whole_log_stays(self):
        self.put(SIGNED)
        self.assertIn("nothing was changed", rejoin.mend(self.log))
        self.assertFalse(self.aside().exists())

    def test_copies_are_never_written_over(self):
        self.aside().write_bytes(b"earlier")
        self.put(SIGNED + bytes(9))
        rejoin.mend(self.log)
        self.assertEqual(self.aside().read_bytes(), b"earlier")
        self.assertEqual(Path(f"{self.log}.before-2").read_bytes(), SIGNED + bytes(9))


class Refusals(InFolder):
    def test_what_may_be_an_entry_is_never_cut(self):
        self.assert_refused(SIGNED[:-1], "is torn at")
        self.assert_refused(SIGNED + b"\1", "is torn at")
        self.assert_refused(SIGNED + bytes(50) + b"\1" + bytes(50), "bad event")
        self.assert_refused(SIGNED + b"\1\1\0\0\0\5" + bytes(5), "bad vertex")

    def test_a_header_that_is_damaged_is_no_cut_one(self):
        self.assert_refused(b"hello", "bad magic")
        self.assert_refused(b"HWLG\7" + SIGNED[5:], "version 7")
        self.assert_refused(SIGNED[:5] + b"\0\0\377\377" + SIGNED[9:], "torn at 9")

    def test_an_entry_that_ends_in_zeros_may_be_damaged(self):
        self.assert_refused(SIGNED[:-32] + bytes(32) + bytes(100), "ends in zeros itself")

    def test_a_log_that_a_process_has_is_left_alone(self):
        self.put(SIGNED + bytes(9))
        with open(f"{self.log}.lock", "ab") as lock:
            fcntl.flock(lock, fcntl.LOCK_EX)
            with self.assertRaisesRegex(rejoin.Problem, "another process has"):
                rejoin.mend(self.log)
        self.assertEqual(self.log.read_bytes(), SIGNED + bytes(9))


class Signatures(unittest.TestCase):
    def test_own_names_are_those_that_the_key_signed(self):
        keys = read_keys(DATA / "three.keys")
        self.assertTrue(rejoin.own_names(DATA / "signed.hwlg", 1, keys))
        self.assertEqual(rejoin.own_names(DATA / "four.hwlg", 1, keys), set())

    def test_a_log_whose_signatures_are_others_is_refused(self):
        keys = read_keys(DATA / "three.keys")
        rejoin.check_signatures(DATA / "signed.hwlg", keys)
        with self.assertRaisesRegex(rejoin.Problem, "isn't signed by the keys"):
            rejoin.check_signatures(DATA / "four.hwlg", keys)


@unittest.skipUnless(PROGRAM.exists(), "the program isn't built")
class Joins(InFolder):
    """Peers that hold parts of a journal, and a validator that lost its log."""

    def setUp(self):
        super().setUp()
        self.config, self.keys = self.folder / "settings.json", self.folder / "keys"
        shutil.copy(DATA / "three.json", self.config)
        shutil.copy(DATA / "three.keys", self.keys)

    def peer(self, name, places):
        """A peer's log with the entries at these places of the shipped log."""
        log = read_log(DATA / "signed.hwlg")
        path = self.folder / name
        path.write_bytes(spelled_log(log.config, [(True, log.entries[place].vertex) for place in places]))
        return str(path)

    def join(self, me, *peers):
        asked = rejoin.Rejoin(PROGRAM.absolute(), self.config, self.keys, self.log, me, list(peers), 20)
        return rejoin.join(asked, 0.1)

    def own(self, path, me):
        return rejoin.own_names(path, me, read_keys(self.keys))

    def test_the_union_of_all_peers_comes_into_the_log(self):
        whole = self.own(DATA / "signed.hwlg", 1)
        half, rest = self.peer("half.log", (0, 1)), self.peer("rest.log", (0, 2, 3))
        self.assertIn("safe to run", self.join(1, half, rest))
        self.assertEqual(self.own(self.log, 1), whole)
        self.assertEqual(len(read_as_far(self.log).entries), 4)

    def test_a_peer_may_host_at_an_address(self):
        address = f"127.0.0.1:{rejoin.free_port()}"
        words = [PROGRAM.absolute(), "host", self.config, self.keys, self.peer("hosted.log", range(4)), address, "64"]
        quiet = {"stdout": subprocess.DEVNULL, "stderr": subprocess.DEVNULL, "cwd": self.folder}
        host = subprocess.Popen(list(map(str, words)), **quiet)
        try:
            self.assertIn("has 2 own units, 2 of them of peers", self.join(1, address))
        finally:
            host.kill()
            host.wait()

    def test_zeros_are_cut_first_and_the_old_log_stays_beside(self):
        self.put(Path(self.peer("own.log", (0,))).read_bytes() + bytes(40))
        self.join(1, self.peer("all.log", range(4)))
        self.assertEqual(len(read_as_far(self.log).entries), 4)
        self.assertTrue(self.aside().read_bytes().endswith(bytes(40)))

    def test_a_peer_that_cannot_be_read_leaves_all_as_it_was(self):
        self.put(Path(self.peer("own.log", (0,))).read_bytes())
        before = self.log.read_bytes()
        for bad in (str(self.folder / "none.log"), "127.0.0.1:1"):
            with self.subTest(bad=bad), self.assertRaises(rejoin.Problem):
                asked = rejoin.Rejoin(PROGRAM.absolute(), self.config, self.keys, self.log, 1, [bad], 0.5)
                rejoin.join(asked, 0.1)
        self.assertEqual(self.log.read_bytes(), before)
        self.assertEqual(list(self.folder.glob(".rejoin-*")), [])

    def test_who_equivocated_is_not_safe(self):
        with self.assertRaisesRegex(rejoin.Problem, "has equivocated"):
            self.join(1, str(DATA / "signed.hwlg"), str(DATA / "signed-other.hwlg"))
        self.assertFalse(self.log.exists())

    def test_an_own_unit_that_waits_is_not_safe(self):
        with self.assertRaisesRegex(rejoin.Problem, "is parked"):
            self.join(1, self.peer("late.log", (1,)))


if __name__ == "__main__":
    unittest.main()
