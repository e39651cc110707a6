"""`watch` on a log that grows, is cut, and is replaced. It needs the program: $HIGHWAY or the built one."""
import contextlib
import io
import json
import pathlib
import tempfile
import types
import unittest

from lens.main import main
from lens.example import EXAMPLE_ORDER, running_example
from lens.log import read_log, spelled_log
from lens.program import has_program
from lens.watch import Follower, Rate, Watch, screen, span_text


class Spans(unittest.TestCase):
    def test_words(self):
        for span, text in (
            (None, "-"),
            (0, "0.0 s"),
            (9_960, "10.0 s"),
            (75_000, "1 min 15 s"),
            (3_700_000, "1 h 1 min"),
            (200_000_000, "2 d 7 h"),
            (-1_500, "-1.5 s"),
        ):
            self.assertEqual(span_text(span), text)

    def test_rate(self):
        rate = Rate()
        self.assertIsNone(rate.mark(0.0, 10))
        self.assertEqual(rate.mark(2.0, 20), 5.0)
        self.assertEqual([rate.mark(12.0 + second, 20) for second in range(3)][-1], 0.0)
        self.assertIsNone(rate.mark(20.0, 3))


class Growing(unittest.TestCase):
    def setUp(self):
        room = tempfile.TemporaryDirectory(prefix="lens-")
        self.addCleanup(room.cleanup)
        self.path = pathlib.Path(room.name) / "node.log"
        world = running_example()
        self.said = spelled_log(world.config, world.pairs(EXAMPLE_ORDER), 2)
        self.path.write_bytes(self.said)
        self.ends = [entry.offset + entry.length for entry in read_log(self.path).entries]

    def test_bytes_that_come_later(self):
        follower, seen = Follower(self.path), []
        for size in range(0, len(self.said) + 1, 50):
            self.path.write_bytes(self.said[:size])
            follower.follow(float(size))
            seen.append((size, follower.reader.place))
        for size, place in seen:
            self.assertEqual(place, sum(end <= size for end in self.ends))

    def test_a_cut_that_stays_is_torn(self):
        follower = Follower(self.path)
        self.path.write_bytes(self.said[:-3])
        for moment, torn in ((0.0, None), (1.0, None), (6.0, self.ends[-2])):
            follower.follow(moment)
            self.assertEqual(follower.torn(moment), torn)
        self.path.write_bytes(self.said)
        follower.follow(7.0)
        self.assertIsNone(follower.torn(7.0))
        self.assertEqual(follower.reader.place, 13)

    def test_a_file_that_is_replaced(self):
        follower = Follower(self.path)
        follower.follow(0.0)
        other = self.path.with_name("new.log")
        other.write_bytes(self.said[: self.ends[4]])
        other.rename(self.path)
        follower.follow(1.0)
        self.assertEqual((follower.reader.place, len(follower.reading.order)), (5, 5))

    @unittest.skipUnless(has_program(), "no built program: build crates/highway, or name one with HIGHWAY")
    def test_states(self):
        watch = Watch(types.SimpleNamespace(log=str(self.path), program=None, now=100, json=False, halt=None))
        watch.judge.next = 0.0
        self.path.write_bytes(self.said[: self.ends[7]])
        told = watch.state()
        self.assertEqual((told["entries"], told["units"], told["final"]), (8, 8, None))
        self.assertEqual((told["faulty"], told["exceeded"], told["agrees"]), ([3], None, True))
        self.path.write_bytes(self.said)
        watch.judge.next = 0.0
        told = watch.state()
        self.assertEqual((told["entries"], told["judged_entries"], told["final"]["height"]), (13, 13, 0))
        self.assertEqual((told["final"]["age_ms"], told["final"]["rounds_without"]), (84, 5))
        self.assertEqual([each["silent_ms"] for each in told["validators"]], [42, 68, 52, 80])
        lines = list(screen(told, watch.follower.reading))
        self.assertIn("5 rounds of 16 ms since", lines[1])
        self.assertTrue(lines[-1].endswith("FAULTY"))

    def watched(self, *words):
        """The status, output and errors of a watch of one refresh."""
        said, told = io.StringIO(), io.StringIO()
        with contextlib.redirect_stdout(said), contextlib.redirect_stderr(told):
            status = main(["watch", *map(str, words), "--count", "1", "--no-progress"])
        return status, said.getvalue(), told.getvalue()

    @unittest.skipUnless(has_program(), "no built program: build crates/highway, or name one with HIGHWAY")
    def test_finality_that_halts(self):
        word = "nothing became final since height 0, whose block is 4.0 s old"
        for words, status, told in (
            (("--now", "4016", "--halt", "3"), 3, f"lens: halted: {word}\n"),
            (("--now", "4016", "--halt", "5"), 0, ""),
            (("--now", "4016"), 0, ""),
        ):
            ended = self.watched(self.path, *words)
            self.assertEqual((ended[0], ended[2]), (status, told))
            self.assertEqual(f"HALTED   {word}" in ended[1], status == 3)
        self.path.write_bytes(self.said[: self.ends[3]])
        self.assertEqual(self.watched(self.path, "--now", "4016", "--halt", "3")[0], 3)
        both = pathlib.Path(__file__).resolve().parents[3] / "crates/highway/data/both.hwlg"
        status, said, told = self.watched(both, "--now", "100", "--halt", "1000")
        self.assertEqual((status, told.count("exceed the threshold: nothing more becomes final")), (3, 1))
        self.assertEqual(self.watched(both, "--now", "100")[0], 0)

    @unittest.skipUnless(has_program(), "no built program: build crates/highway, or name one with HIGHWAY")
    def test_a_text_for_prometheus(self):
        file = self.path.with_name("metrics.prom")
        self.assertEqual(self.watched(self.path, "--now", "100", "--metrics", file)[0], 0)
        status, said, _ = self.watched(self.path, "--now", "100", "--metrics", "-")
        self.assertEqual((status, said), (0, file.read_text()))
        lines = said.splitlines()
        for line in (
            "highway_final_height 0",
            "highway_final_age_seconds 0.084",
            "highway_halted 0",
            "highway_units 11",
        ):
            self.assertIn(line, lines)
        self.assertIn('highway_faulty{validator="3"} 1', lines)
        self.assertEqual(
            [line.split()[2] for line in lines if line.startswith("# TYPE ")],
            [line.split()[2] for line in lines if line.startswith("# HELP ")],
        )
        self.path.write_bytes(self.said[:3])
        self.assertIn("highway_judged 0", self.watched(self.path, "--metrics", "-")[1])

    @unittest.skipUnless(has_program(), "no built program: build crates/highway, or name one with HIGHWAY")
    def test_lines_of_json(self):
        said = io.StringIO()
        with contextlib.redirect_stdout(said):
            status = main(["watch", str(self.path), "--json", "--count", "2", "--every", "0.01", "--now", "100"])
        lines = [json.loads(line) for line in said.getvalue().splitlines()]
        self.assertEqual((status, len(lines), lines[0]["units"], lines[1]["units_a_second"]), (0, 2, 11, 0.0))


if __name__ == "__main__":
    unittest.main()
