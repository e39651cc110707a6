"""Tests of the check that needs no proof: how it runs a program, and how it ends. Nothing is built here."""

import contextlib
import io
import os
import shutil
import tempfile
import unittest
from unittest import mock

from gate import quick_check
from gate.quick_check import Failed


class Programs(unittest.TestCase):
    def setUp(self):
        self.work = tempfile.mkdtemp()
        self.addCleanup(shutil.rmtree, self.work)
        self.put("stdin", "given\n")
        self.put("args", "data\n")
        self.put("data/data", "of a file\n")
        self.put("program", f"#!{shutil.which('sh')}\ncat - \"$1\"\nexit 3\n")
        os.chmod(f"{self.work}/program", 0o755)

    def put(self, name, text):
        os.makedirs(os.path.dirname(f"{self.work}/{name}"), exist_ok=True)
        with open(f"{self.work}/{name}", "w", encoding="utf-8") as it:
            it.write(text)

    def run_it(self):
        quick_check.run_stored(f"{self.work}/program", self.work)

    def test_words_input_files_and_status_are_those_that_are_stored(self):
        self.put("stdout", "given\nof a file\n")
        self.put("status", "3\n")
        self.run_it()
        self.assertEqual(os.listdir(f"{self.work}/data"), ["data"])

    def test_another_status_is_told(self):
        self.put("stdout", "given\nof a file\n")
        with self.assertRaisesRegex(Failed, "it ended with 3, and not 0"):
            self.run_it()

    def test_another_text_is_told_with_its_first_line(self):
        self.put("stdout", "given\nof another\n")
        self.put("status", "3\n")
        with self.assertRaisesRegex(Failed, "line 2 is 'of a file', and was 'of another'"):
            self.run_it()

    def test_a_text_that_ends_early_is_told(self):
        self.assertEqual(quick_check.first_difference(b"a\n", b"a\nb\n"), "line 2 is '(the end)', and was 'b'")


class Ends(unittest.TestCase):
    def ended(self, *words, fails=()):
        def step(name, *_):
            return name not in fails

        said = io.StringIO()
        with mock.patch.object(quick_check, "step", step), contextlib.redirect_stdout(said):
            return quick_check.main(list(words)), said.getvalue().splitlines()

    def test_all_steps_are_counted_and_nothing_is_called_proved(self):
        status, lines = self.ended()
        self.assertEqual((status, lines), (0, ["12 passed, 0 failed", quick_check.NOTHING]))

    def test_what_fails_is_counted(self):
        self.assertEqual(self.ended(fails=("headline", "tools")), (1, ["10 passed, 2 failed", quick_check.NOTHING]))

    def test_some_steps_alone(self):
        self.assertEqual(self.ended("headline", "tools"), (0, ["2 passed, 0 failed", quick_check.NOTHING]))

    def test_a_step_that_is_none(self):
        with contextlib.redirect_stderr(io.StringIO()) as said, self.assertRaises(SystemExit):
            quick_check.main(["nothing"])
        self.assertIn("no step is named nothing", said.getvalue())


if __name__ == "__main__":
    unittest.main()
