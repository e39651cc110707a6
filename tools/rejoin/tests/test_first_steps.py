"""Tests of new_keys.py and next_era.py, and of the first logs and the meetings of rejoin.py, in which a fake program
plays the node."""

import contextlib
import io
import json
import tempfile
import unittest
from pathlib import Path

from rejoin import main as rejoin
from rejoin import new_keys, next_era
from trials.fake_program import fake_program

FINAL = "print('units 3'); print('final 4', 'a' * 64, 'level 1'); print('final 5', 'b' * 64, 'level 1')"


class InFolder(unittest.TestCase):
    def setUp(self):
        folder = tempfile.TemporaryDirectory()
        self.addCleanup(folder.cleanup)
        self.folder = Path(folder.name)

    def ends(self, main, *words):
        """The status with which a script ends, and what it wrote."""
        said = io.StringIO()
        with contextlib.redirect_stdout(said), contextlib.redirect_stderr(said):
            return main([str(word) for word in words]), said.getvalue()


class Keys(InFolder):
    def test_a_key_for_each_validator_and_no_two_alike(self):
        self.assertEqual(self.ends(new_keys.main, 3, self.folder / "keys"), (0, ""))
        text = (self.folder / "keys").read_text(encoding="ascii")
        self.assertRegex(text, r"\A([0-9a-f]{64}\n){3}\Z")
        self.assertEqual(len(set(text.splitlines())), 3)
        self.assertEqual((self.folder / "keys").stat().st_mode & 0o77, 0)

    def test_keys_that_are_there_stay(self):
        (self.folder / "keys").write_text("mine", encoding="ascii")
        self.assertEqual(self.ends(new_keys.main, 3, self.folder / "keys")[0], 1)
        self.assertEqual((self.folder / "keys").read_text(encoding="ascii"), "mine")

    def test_words_that_are_none(self):
        for words in ((), ("3",), ("0", "keys"), ("1025", "keys"), ("-1", "keys")):
            self.assertEqual(self.ends(new_keys.main, *words)[0], 2)


class NextEra(InFolder):
    def write(self, replay=FINAL, mend="copy(words[0], words[1])", **settings):
        (self.folder / "settings.json").write_text(json.dumps({"levels": 1, "leaders": [0, 1], **settings}))
        (self.folder / "a.log").write_bytes(b"HWLG")
        program = fake_program(self.folder, mend=mend, replay=replay)
        new = self.folder / "next.json"
        words = (program, self.folder / "settings.json", self.folder / "a.log", new)
        return *self.ends(next_era.main, *words), new

    def test_leaders_are_drawn_by_the_block_at_the_end(self):
        status, _, new = self.write(end=5)
        self.assertEqual(status, 0)
        self.assertEqual(json.loads(new.read_text()), {"levels": 1, "leaders": {"drawn": "b" * 64}, "end": 5})

    def test_there_is_none_before_the_end_is_final(self):
        for end in (6, 55):
            status, said, new = self.write(end=end)
            self.assertEqual((status, new.exists()), (1, False))
            self.assertIn(f"the block of height {end}", said)

    def test_there_is_none_without_an_end_or_a_log_that_replays(self):
        for case in ({}, {"end": 5, "replay": "sys.exit(2)"}, {"end": 5, "mend": "sys.exit(2)"}):
            status, said, new = self.write(**case)
            self.assertEqual((status, new.exists()), (1, False))
            self.assertTrue(said.startswith("no next era: "))

    def test_a_file_that_is_there_stays(self):
        (self.folder / "next.json").write_text("mine")
        status, _, new = self.write(end=5)
        self.assertEqual((status, new.read_text()), (1, "mine"))


class FirstLogs(InFolder):
    def make(self, meet):
        log = self.folder / "a.log"
        program = fake_program(self.folder, meet=meet)
        return rejoin.make_first(program, self.folder / "settings.json", self.folder / "keys", log)

    def test_a_meeting_with_nobody_makes_it(self):
        said = self.make("write(words[2], b'HWLG'); print('peer 0 link fault'); sys.exit(6)")
        self.assertIn("is made, and has no unit", said)

    def test_another_end_made_none(self):
        with self.assertRaisesRegex(rejoin.Problem, "status 2: input settings.json: config form"):
            self.make("print('input settings.json: config form'); sys.exit(2)")

    def test_a_node_that_ran_has_a_log_or_a_lock(self):
        for name in ("a.log", "a.log.lock"):
            (self.folder / name).touch()
            with self.assertRaisesRegex(rejoin.Problem, "needs `join`"):
                self.make("sys.exit(6)")
            (self.folder / name).unlink()


class Meetings(InFolder):
    """Meetings that are cut."""

    def dial(self, meet, patience=0.3):
        program = fake_program(self.folder, meet=meet)
        meeting = rejoin.Rejoin(program, "settings.json", "keys", self.folder / "a.log", 0, [], patience, self.folder)
        meeting.own.write_bytes(b"")
        meeting.dial("hub", "127.0.0.1:1")
        return meeting.own.read_bytes()

    def test_it_meets_again_while_the_log_grows(self):
        grows = "data = read(words[2]) + b'.'; write(words[2], data)"
        self.assertEqual(self.dial(f"{grows}\nif len(data) < 4: print('peer 0 bad frame at 9')"), b"....")

    def test_it_gives_up_where_nothing_comes(self):
        with self.assertRaisesRegex(rejoin.Problem, "bad frame at 9, and nothing more came"):
            self.dial("print('peer 0 bad frame at 9')")
        with self.assertRaisesRegex(rejoin.Problem, "link fault for 0.3 seconds"):
            self.dial("print('peer 0 link fault'); sys.exit(6)")

    def test_another_status_is_a_problem_at_once(self):
        with self.assertRaisesRegex(rejoin.Problem, "status 8: limits 3"):
            self.dial("print('limits 3'); sys.exit(8)")


class TornEntries(InFolder):
    def mend(self, mend, data=b"HWLG012345"):
        log = self.folder / "a.log"
        log.write_bytes(data)
        return rejoin.mend(log, fake_program(self.folder, mend=mend)), log.read_bytes()

    def test_the_program_cuts_a_torn_entry(self):
        said, data = self.mend("write(words[1], read(words[0])[:7])")
        self.assertIn("had 3 bytes of an entry at its end", said)
        self.assertEqual((data, (self.folder / "a.log.before-1").read_bytes()), (b"HWLG012", b"HWLG012345"))

    def test_a_whole_log_stays(self):
        said, _ = self.mend("copy(words[0], words[1])")
        self.assertIn("nothing was changed", said)
        self.assertFalse((self.folder / "a.log.before-1").exists())

    def test_what_cannot_be_mended_stays(self):
        with self.assertRaisesRegex(rejoin.Problem, "status 2: input a: bad magic"):
            self.mend("print('input a: bad magic'); sys.exit(2)")

    def test_there_has_to_be_a_log(self):
        with self.assertRaisesRegex(rejoin.Problem, "isn't there"):
            rejoin.mend(self.folder / "b.log", "program")


if __name__ == "__main__":
    unittest.main()
