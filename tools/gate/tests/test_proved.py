"""Tests of what the gate notes of the proved program, over a small repository."""

import contextlib
import io
import os
import shutil
import tempfile
import unittest
from unittest import mock

from gate import proved
from look import program
from look.sources import sum_of_file, sum_of_proofs


class Notes(unittest.TestCase):
    def setUp(self):
        self.root = tempfile.mkdtemp()
        self.addCleanup(shutil.rmtree, self.root)
        self.put("crates.txt", "highway:\n")
        self.put("crates/highway/src/main.rt", "fn main() {}\n")
        self.put("crates/highway/out/highway", "a program")

    def put(self, path, text):
        os.makedirs(os.path.dirname(f"{self.root}/{path}"), exist_ok=True)
        with open(f"{self.root}/{path}", "w", encoding="utf-8") as it:
            it.write(text)

    def said(self, call, *given):
        with contextlib.redirect_stdout(io.StringIO()) as said:
            return call(*given, self.root), said.getvalue()

    def test_the_program_is_noted_as_that_of_the_sources(self):
        of = sum_of_proofs("highway", self.root)
        self.assertEqual(self.said(proved.note, of), (0, ""))
        self.assertEqual(program.proved("highway", self.root), f"{self.root}/crates/highway/out/highway")

    def test_sources_that_changed_meanwhile_are_not_noted(self):
        of = sum_of_proofs("highway", self.root)
        self.put("crates/highway/src/main.rt", "fn main() { }\n")
        status, said = self.said(proved.note, of)
        self.assertEqual(status, 1)
        self.assertIn("changed while they were proved", said)
        self.assertIsNone(program.proved("highway", self.root))

    def test_without_a_program_there_is_nothing_to_note(self):
        os.remove(f"{self.root}/crates/highway/out/highway")
        self.assertEqual(self.said(proved.note, sum_of_proofs("highway", self.root))[0], 1)

    def test_the_sums_of_the_files_are_told(self):
        status, said = self.said(proved.files)
        self.assertEqual(status, 0)
        self.assertIn(f"  {sum_of_file(self.root + '/crates/highway/out/highway')}  crates/highway/out/highway\n", said)
        self.assertIn("  not built  crates/hw_c/out/libhw_c.a\n", said)

    def test_words(self):
        for words in (["note"], ["sum", "1"]):
            with contextlib.redirect_stderr(io.StringIO()), self.assertRaises(SystemExit):
                proved.main(words)
        with contextlib.redirect_stdout(io.StringIO()) as said, mock.patch.object(
            proved, "sum_of_proofs", lambda _: "s"
        ):
            self.assertEqual(proved.main(["sum"]), 0)
        self.assertEqual(said.getvalue(), "s\n")


if __name__ == "__main__":
    unittest.main()
