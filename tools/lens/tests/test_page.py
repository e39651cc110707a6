"""Tests of `page`: what the page knows of a log, that nothing a log says can break it, and two logs side by side.

Those that need the program take $HIGHWAY or the built one, and are skipped where there is none.
"""
import contextlib
import io
import json
import pathlib
import re
import tempfile
import unittest
from argparse import Namespace
from dataclasses import replace

from lens.main import main
from lens.example import EXAMPLE_ORDER, World, make_config, running_example
from lens.graph import read_journal
from lens.log import SignedUnit, read_log, spelled_log, with_digest
from lens.page import make_panels, page, panel_data
from lens.program import Final, Report, Verdict, has_program

DATA = pathlib.Path(__file__).resolve().parents[3] / "crates" / "highway" / "data"
NO_PROGRAM = "no built program: build crates/highway, or name one with HIGHWAY"


class Stand:
    """Stands in for the program: says what the own reading says, and the final blocks and verdict that a test names."""

    def __init__(self, finals=(), verdict=None):
        self.finals, self.verdict = list(finals), verdict

    def replay(self, file):
        with file as path:
            reading = read_journal(read_log(path))
        lines = reading.totals()
        words = lines[0].split()
        return Report(lines, dict(zip(words[::2], map(int, words[1::2]))), reading.faulty(), None, self.finals)

    def explain(self, _):
        return self.finals

    def audit(self, *_):
        return self.verdict


class Room(unittest.TestCase):
    """A folder for each test, and the pages that are made in it."""

    def setUp(self):
        room = tempfile.TemporaryDirectory(prefix="lens-")
        self.addCleanup(room.cleanup)
        self.room = pathlib.Path(room.name)

    def file(self, data, name="a.hwlg"):
        (self.room / name).write_bytes(data)
        return str(self.room / name)

    def panels(self, stand, *paths):
        return make_panels(paths, stand, Namespace(no_progress=True, rounds=(None, None)))

    def lens(self, *words):
        """A command's status, its output, and its errors."""
        said, told = io.StringIO(), io.StringIO()
        with contextlib.redirect_stdout(said), contextlib.redirect_stderr(told):
            status = main([str(word) for word in words])
        return status, said.getvalue(), told.getvalue()


def data_of(said):
    """What a page's script reads."""
    return json.loads(re.search(r'<script type="application/json" id="data">(.*?)</script>', said, re.S)[1])


class Walks(Room):
    """The running example of docs/DEFINITIONS.md, entry by entry."""

    def setUp(self):
        super().setUp()
        self.world = running_example()
        self.block = self.world.units["a0"].unit.digest
        finals = [Final(0, self.block, 2, 9, 9, {1: (0, 1, 2), 2: (0, 1, 2)})]
        self.path = self.file(spelled_log(self.world.config, self.world.pairs(EXAMPLE_ORDER), 2))
        self.stand = Stand(finals)
        self.all, _ = self.panels(self.stand, self.path)
        self.data = panel_data(self.all[0], self.stand)

    def name(self, name):
        return self.world.units[name].unit.digest.hex()

    def test_what_became_final_and_faulty_when(self):
        walk = list(enumerate(self.data["walk"], 1))
        self.assertEqual([(place, step["faulty"]) for place, step in walk if step["faulty"]], [(5, [3])])
        self.assertEqual([(place, step["finals"]) for place, step in walk if step["finals"]], [(9, [self.block.hex()])])
        self.assertEqual(self.data["finals"][0]["committee"], "1, 2 from 0/1/2")

    def test_the_state_after_each_entry(self):
        walk = self.data["walk"]
        self.assertEqual([step["counts"][0] for step in walk], [*range(1, 11), 10, 10, 11])
        settled = [digest for step in walk for digest in step["settles"]]
        self.assertEqual(sorted(settled), sorted(unit["digest"] for unit in self.data["units"]))
        forks = [self.all[0].labels[bytes.fromhex(step["fork"])].text for step in walk]
        self.assertEqual(forks, ["0"] * 7 + ["1a"] * 2 + ["1b"] * 3 + ["1a"])
        self.assertEqual([step["what"].split()[0] for step in walk].count("endorsement"), 2)

    def test_a_unit_in_full(self):
        number = self.all[0].numbers[self.world.units["a1"].unit.digest]
        told, names = self.data["units"][number], list(self.all[0].numbers)
        self.assertEqual((told["creator"], told["seq"], told["time"], told["round"]), (0, "1", "58", "48"))
        cited = [names.index(self.world.units[name].unit.digest) for name in ("a0", "b2", "c2")]
        self.assertEqual(told["panorama"], [*cited, -2])
        self.assertEqual(told["endorsed"], [self.name("b2")])
        self.assertEqual(told["state"], "settled")

    def test_starts_of_summits(self):
        tags = {unit["digest"]: unit["tags"] for unit in self.data["units"]}
        self.assertEqual(tags[self.name("b0")][0], {"kind": "start", "blocks": [self.block.hex()], "levels": [0]})
        self.assertTrue(self.data["hasStarts"])

    def test_a_page_needs_no_network(self):
        said = page(self.all, self.stand, None)
        self.assertFalse(
            re.search(r"src\s*=|href\s*=\s*\"(?!#)|url\(|@import|https?://(?!www\.w3\.org/2000/svg)", said)
        )
        self.assertIn("proves nothing", said)
        self.assertIn("default-src 'none'", said)
        self.assertEqual(len(data_of(said)[0]["walk"]), 13)

    def test_rounds_that_werent_asked_for_are_hidden(self):
        [panel], _ = make_panels([self.path], self.stand, Namespace(no_progress=True, rounds=(2, 2)))
        hidden = [unit["isHidden"] for unit in panel_data(panel, self.stand)["units"]]
        self.assertTrue(any(hidden) and not all(hidden))


class Hostile(Room):
    def test_what_a_log_says_ends_no_script(self):
        world = World(make_config((1, 1), 0))
        unit = world.unit("a0 by 0 at 16 cites - - block x").unit
        unit = with_digest(replace(unit, value=b"</script><script>alert(1)</script>"))
        path = self.file(spelled_log(world.config, [(True, SignedUnit(unit, bytes(32)))]))
        stand = Stand()
        said = page(self.panels(stand, path)[0], stand, None)
        self.assertEqual(said.count("</script>"), 2)
        self.assertIn("alert(1)", data_of(said)[0]["units"][0]["value"])

    def test_a_program_that_says_otherwise_is_told(self):
        world = running_example()
        path = self.file(spelled_log(world.config, world.pairs("a0 b0")))

        class Other(Stand):
            def replay(self, file):
                report = super().replay(file)
                return replace(report, lines=["units 7", *report.lines[1:]])

        panels, _ = self.panels(Other(), path)
        self.assertTrue(panels[0].seen.notes and panels[0].seen.notes[0].startswith("THE TWO READINGS DIFFER"))
        self.assertIn("THE TWO READINGS DIFFER", page(panels, Other(), None))


class Conflicts(Room):
    def sides(self):
        """Two logs of three validators; validator 1 has a unit of number 0 in each."""
        world = World(make_config((1, 1, 1), 0, levels=1, leaders=(0, 0, 2)))
        for line in (
            "a0 by 0 at 16 cites - - - block x",
            "b0 by 1 at 17 cites a0 - -",
            "c0 by 2 at 32 cites - - - block y",
            "e0 by 1 at 33 cites - - c0",
        ):
            world.unit(line)
        left, right = (
            self.file(spelled_log(world.config, world.pairs(order)), name)
            for order, name in (("a0 b0", "left.hwlg"), ("c0 e0", "right.hwlg"))
        )
        digest = {name: signed.unit.digest for name, signed in world.units.items()}
        verdict = Verdict("", None, 0, digest["a0"], digest["c0"], [(1, digest["b0"], digest["e0"])], 1, 0)
        return left, right, verdict, digest

    def test_both_sides_show_what_the_audit_says(self):
        left, right, verdict, digest = self.sides()
        panels, said = self.panels(Stand(verdict=verdict), left, right)
        self.assertIs(said, verdict)
        made = page(panels, Stand(verdict=verdict), verdict)
        self.assertIn("a conflict at height 0", made)
        self.assertIn("weigh 1, above the threshold of 0", made)
        wanted = {"b0": "culprit", "e0": "culprit", "a0": "conflict", "c0": "conflict"}
        for data in data_of(made):
            self.assertEqual(data["marked"], {digest[name].hex(): word for name, word in wanted.items()})
            self.assertEqual(data["first"], 0)
        self.assertEqual([panels[0].labels[digest[name]].text for name in ("a0", "c0")], ["0a", "0b"])

    def test_agreement(self):
        left, right, _, _ = self.sides()
        verdict = Verdict("", agree=0)
        panels, _ = self.panels(Stand(verdict=verdict), left, right)
        made = page(panels, Stand(verdict=verdict), verdict)
        self.assertEqual([data["marked"] for data in data_of(made)], [{}, {}])
        self.assertIn("the two agree", made)

    @unittest.skipUnless(has_program(), NO_PROGRAM)
    def test_the_shipped_conflict(self):
        out = self.room / "out.html"
        self.assertEqual(self.lens("page", DATA / "four.hwlg", DATA / "other.hwlg", out)[0], 0)
        self.assertIn("a conflict at height 0", out.read_text())


class BadWords(Room):
    @unittest.skipUnless(has_program(), NO_PROGRAM)
    def test_bad_input_is_named(self):
        out, four = self.room / "out.html", DATA / "four.hwlg"
        bad = self.file(four.read_bytes()[:20])
        cases = (
            ((four, four, four, out), "one log, or two"),
            ((bad, out), "torn at 9"),
            ((four, DATA / "ending.hwlg", out), "other config"),
            ((self.room / "none", out), "no such file"),
        )
        for words, said in cases:
            status, _, told = self.lens("page", *words)
            self.assertEqual((status, told.count("\n")), (2, 1), told)
            self.assertIn(said, told)
            self.assertFalse(out.exists())

    @unittest.skipUnless(has_program(), NO_PROGRAM)
    def test_nothing_is_written_over(self):
        out = self.room / "out.html"
        out.write_text("mine")
        self.assertEqual(self.lens("page", DATA / "four.hwlg", out)[0], 2)
        self.assertEqual(out.read_text(), "mine")
        self.assertEqual(self.lens("page", DATA / "four.hwlg", out, "--force")[0], 0)
        self.assertIn("four.hwlg", out.read_text())

    @unittest.skipUnless(has_program(), NO_PROGRAM)
    def test_each_shipped_log_has_a_page(self):
        for log in sorted(DATA.glob("*.hwlg")):
            status, said, told = self.lens("page", log, self.room / f"{log.stem}.html")
            self.assertEqual(status, 0, said + told)


if __name__ == "__main__":
    unittest.main()
