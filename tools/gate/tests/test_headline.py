"""Tests of headline.py, over a small repository of their own."""

import contextlib
import io
import tempfile
import unittest
from pathlib import Path
from unittest import mock

from gate import headline

LOW = """-- Units.
use Rattle.std.specs.Prelude.{ℕ, List, filter}
use Rattle.hw_low.specs.declared.unit.Obs.{Obs}

-- a unit
pub record Node : Type 0 where
  -- its number
  pub seq : ℕ

-- what the words ask for
pub data Request : Type 0 where
  Replay : ℕ → Request
  Other : ℕ → Request

-- first this,
-- then that
infixl 10 ◌>>=◌
abbrev pub ◌>>=◌ : ℕ → (ℕ → ℕ) → ℕ
n >>= f = f n

abbrev pub alike : ℕ
alike = 3

-- what other commands need
unfoldable pub beside : ℕ → ℕ
beside n = n

-- never named
abbrev pub unused : Obs → ℕ
unused o = 4
"""
HIGH = """use Rattle.std.specs.Prelude.{ℕ}
use Rattle.hw_low.specs.Low.{Node, Request, Replay, Other, ◌>>=◌, beside as next, worked}

-- what is believed
abbrev pub IsSo : Node → ℕ
IsSo u = u.alike

-- what a run says
abbrev pub said : Request → ℕ
said (Replay n) = n >>= λ m. worked m
said (Other n) = next n
"""


class Headline(unittest.TestCase):
    def setUp(self):
        room = tempfile.TemporaryDirectory()
        self.addCleanup(room.cleanup)
        self.root = Path(room.name)
        self.put("crates/hw_low/specs/Low.antt", LOW + "\n-- worked out\nabbrev pub worked : ℕ → ℕ\nworked n = alike\n")
        self.put("crates/hw_high/specs/High.antt", HIGH)
        (self.root / "docs").mkdir()
        instead = {"hw_low.Low.worked": headline.Instead("it_is_so", "hw_high", ("hw_high.High.IsSo",))}
        parts = (headline.Part("Below"), headline.Part("Above", ("hw_high.",)))
        for name, value in {"ROOTS": ("hw_high.High.said",), "PARTS": parts, "INSTEAD": instead, "SAID": {}}.items():
            patch = mock.patch.object(headline, name, value)
            patch.start()
            self.addCleanup(patch.stop)

    def put(self, path, text):
        file = self.root / path
        file.parent.mkdir(parents=True, exist_ok=True)
        file.write_text(text, encoding="utf-8")

    def ran(self, *flags):
        out = io.StringIO()
        with contextlib.redirect_stdout(out), contextlib.redirect_stderr(out):
            status = headline.main([*flags, str(self.root)])
        return status, out.getvalue()

    def page(self):
        return (self.root / headline.PAGE).read_text(encoding="utf-8")

    def names(self):
        found = headline.definitions_of(self.root)
        return [
            full for _, names in headline.by_files(found, headline.closure(found, headline.ROOTS)[0]) for full in names
        ]

    def test_what_is_named_and_nothing_else(self):
        low, high = "hw_low.Low.", "hw_high.High."
        self.assertEqual(
            self.names(), [low + "Node", low + "Request", low + ">>=", low + "beside", high + "IsSo", high + "said"]
        )

    def test_parts_have_sizes_and_say_what_they_take_from_below(self):
        self.assertEqual(self.ran()[0], 0)
        self.assertIn("| 1. Below | 4 | 9 |\n| 2. Above | 2 | 5 |\n", self.page())
        self.assertNotIn("From parts below", self.page())
        with mock.patch.object(headline, "PARTS", (headline.Part("High"), headline.Part("Low", ("hw_low.",)))):
            self.ran()
        self.assertIn("## 1. High\n\nFrom parts below: `>>=`, `Node`, `Request`, `beside`.\n", self.page())

    def test_what_is_worked_out_is_told_where_it_is_met(self):
        never = headline.Instead("never", "hw_high", (), "nothing")
        with mock.patch.dict(
            headline.INSTEAD,
            {"hw_low.Low.unused": never, "hw_low.Low.beside": headline.Instead("law", "hw_low", (), "one number")},
        ):
            self.ran()
        self.assertIn("| `beside` | `law` (hw_low) | one number |", self.page())
        self.assertNotIn("never", self.page())

    def test_what_is_worked_out_is_followed_where_no_law_replaces_it(self):
        with mock.patch.object(headline, "INSTEAD", {}):
            self.assertIn("hw_low.Low.alike", self.names())
            self.assertNotIn("hw_high.High.IsSo", self.names())

    def test_the_page_has_place_and_plain_words(self):
        self.assertEqual(self.ran(), (0, "headline: 6 definitions, 14 lines, of which 9 are the protocol's\n"))
        self.assertIn("### [hw_low/specs/Low.antt](../crates/hw_low/specs/Low.antt)", self.page())
        self.assertIn("| 6 | `Node` | a unit |", self.page())
        self.assertIn("| 18 | `>>=` | first this, then that |", self.page())
        self.assertIn("| `worked` | `it_is_so` (hw_high) | `IsSo` |", self.page())

    def test_a_definition_without_a_comment_has_that_of_its_group(self):
        found = headline.definitions_of(self.root)
        self.assertEqual(found.by_name["hw_low.Low.alike"].comment, "first this, then that")

    def test_a_page_that_is_old(self):
        self.ran()
        self.assertEqual(self.ran("--check")[0], 0)
        self.put(
            "crates/hw_low/specs/Low.antt", "-- Units.\n" + (self.root / "crates/hw_low/specs/Low.antt").read_text()
        )
        status, said = self.ran("--check")
        self.assertEqual(status, 1)
        self.assertIn("isn't what the definitions say", said)

    def test_no_page(self):
        self.assertEqual(self.ran("--check")[0], 1)
        self.assertFalse((self.root / headline.PAGE).exists())

    def test_more_than_a_reader_can_believe(self):
        with mock.patch.object(headline, "MOST_DEFINITIONS", 5):
            self.assertEqual(self.ran()[0], 1)
        with mock.patch.object(headline, "MOST_LINES", 13):
            self.assertEqual(self.ran()[0], 1)
        with mock.patch.object(headline, "MOST_OF_PROTOCOL", 8):
            self.assertEqual(self.ran()[0], 1)

    def test_a_root_that_is_gone(self):
        self.put("crates/hw_high/specs/High.antt", "-- nothing\n")
        self.assertEqual(self.ran(), (2, "headline: there is no definition hw_high.High.said\n"))


if __name__ == "__main__":
    unittest.main()
