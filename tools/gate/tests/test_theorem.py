"""Tests of theorem.py, over a small repository of their own."""

import contextlib
import io
import tempfile
import unittest
from pathlib import Path
from unittest import mock

from gate import theorem

LOW = """-- Units.
use Rattle.std.specs.Prelude.{ℕ}

-- a unit
pub record Node : Type 0 where
  pub seq : ℕ

-- a number of it
abbrev pub number_of : Node → ℕ
number_of u = u.seq
"""
HIGH = """use Rattle.hw_low.specs.Low.{Node, number_of}

-- its number is right
abbrev pub IsRight : Node → ℕ
IsRight u = number_of u

-- so are all
abbrev pub AllAreRight : Node → ℕ
AllAreRight u = IsRight u
"""
TEXT = "# Theorems\n\nAll [are right][AllAreRight], as a [unit][Node] [is][IsRight] by [number][number_of].\n\n"


class Theorem(unittest.TestCase):
    def setUp(self):
        room = tempfile.TemporaryDirectory()
        self.addCleanup(room.cleanup)
        self.root = Path(room.name)
        self.put("crates/hw_low/specs/Low.antt", LOW)
        self.put("crates/hw_high/specs/High.antt", HIGH)
        self.page = self.put("docs/THEOREM.md", TEXT + theorem.BEGIN + "\n")
        self.states(theorem.Theorem(("hw_high.High.AllAreRight",)))

    def put(self, path, text):
        file = self.root / path
        file.parent.mkdir(parents=True, exist_ok=True)
        file.write_text(text, encoding="utf-8")
        return file

    def states(self, *theorems):
        patch = mock.patch.object(theorem, "THEOREMS", theorems)
        patch.start()
        self.addCleanup(patch.stop)

    def ran(self, *flags):
        out = io.StringIO()
        with contextlib.redirect_stdout(out), contextlib.redirect_stderr(out):
            status = theorem.main([*flags, str(self.root)])
        return status, out.getvalue()

    def test_the_list_is_written_by_files_and_lines(self):
        self.assertEqual(self.ran(), (0, "theorem: 4 definitions, 8 lines\n"))
        high, low = "../crates/hw_high/specs/High.antt", "../crates/hw_low/specs/Low.antt"
        rows = [f"[IsRight]: {high}#L4", f"[AllAreRight]: {high}#L8", f"[Node]: {low}#L5", f"[number_of]: {low}#L9"]
        self.assertEqual(self.page.read_text(encoding="utf-8"), TEXT + "\n".join([theorem.BEGIN, *rows, ""]))
        self.assertEqual(self.ran("--check")[0], 0)

    def test_a_line_that_moved(self):
        self.ran()
        self.put("crates/hw_low/specs/Low.antt", "-- More.\n" + LOW)
        status, said = self.ran("--check")
        self.assertEqual(status, 1)
        self.assertIn("isn't what the definitions say", said)

    def test_crates_that_are_not_followed(self):
        self.states(theorem.Theorem(("hw_high.High.AllAreRight",), ("hw_high.",)))
        self.page.write_text("[All][AllAreRight] [are][IsRight] so.\n" + theorem.BEGIN + "\n", encoding="utf-8")
        self.assertEqual(self.ran(), (0, "theorem: 2 definitions, 4 lines\n"))

    def test_a_definition_that_the_text_leaves_out(self):
        self.page.write_text(TEXT.replace("[number_of]", "") + theorem.BEGIN + "\n", encoding="utf-8")
        status, said = self.ran()
        self.assertEqual(status, 1)
        self.assertIn("links number_of nowhere", said)

    def test_a_link_on_which_no_theorem_stands(self):
        self.page.write_text(TEXT + "[It][Other] is.\n" + theorem.BEGIN + "\n", encoding="utf-8")
        status, said = self.ran("--check")
        self.assertEqual(status, 1)
        self.assertIn("links Other, and no theorem stands on it", said)

    def test_more_lines_than_a_reader_reads(self):
        with mock.patch.object(theorem, "MOST_LINES", 7):
            self.assertEqual(self.ran()[0], 1)

    def test_two_of_one_name(self):
        self.put("crates/hw_high/specs/High.antt", HIGH.replace("IsRight u = number_of u", "IsRight u = other.Node u"))
        self.put("crates/hw_high/specs/Other.antt", "-- another\nabbrev pub Node : ℕ\nNode = 0\n")
        self.states(theorem.Theorem(("hw_low.Low.Node",)), theorem.Theorem(("hw_high.Other.Node",)))
        self.assertEqual(self.ran()[0], 2)

    def test_a_root_or_a_page_that_is_gone(self):
        self.states(theorem.Theorem(("hw_high.High.Gone",)))
        self.assertEqual(self.ran(), (2, "theorem: there is no definition hw_high.High.Gone\n"))
        self.states()
        self.page.write_text(TEXT, encoding="utf-8")
        self.assertEqual(self.ran()[0], 2)
        self.page.unlink()
        self.assertEqual(self.ran()[0], 2)


if __name__ == "__main__":
    unittest.main()
