"""Tests of which program is run, over a small repository. Nothing is built here."""

import contextlib
import io
import os
import shutil
import subprocess
import tempfile
import types
import unittest
from unittest import mock

from look import kit, main, program
from look.build import BuildError, Stages
from look.sources import sum_of_proofs, sum_of_sources

FILES = {
    "crates.txt": "low:\ntop: low\nother: low\n",
    "crates/low/src/lib.rt": "pub fn one() {}\n",
    "crates/low/specs/Lib.antt": "-- nothing\n",
    "crates/top/src/main.rt": "fn main() {}\n",
    "crates/other/src/lib.rt": "pub fn other() {}\n",
}


class Repository(unittest.TestCase):
    def setUp(self):
        self.root = tempfile.mkdtemp()
        self.addCleanup(shutil.rmtree, self.root)
        for path, text in FILES.items():
            self.put(path, text)

    def put(self, path, text):
        os.makedirs(os.path.dirname(f"{self.root}/{path}"), exist_ok=True)
        with open(f"{self.root}/{path}", "w", encoding="utf-8") as it:
            it.write(text)

    def test_the_sum_has_what_the_program_reaches_and_no_more(self):
        before, proofs = sum_of_sources("top", root=self.root), sum_of_proofs("top", self.root)
        self.put("crates/other/src/lib.rt", "pub fn another() {}\n")
        self.assertEqual((sum_of_sources("top", root=self.root), sum_of_proofs("top", self.root)), (before, proofs))
        self.put("crates/low/specs/Lib.antt", "-- a word\n")
        self.assertEqual(sum_of_sources("top", root=self.root), before)
        self.assertNotEqual(sum_of_proofs("top", self.root), proofs)
        self.put("crates/low/src/lib.rt", "pub fn two() {}\n")
        self.assertNotEqual(sum_of_sources("top", root=self.root), before)

    def test_the_proved_program_is_taken_of_these_sources_alone(self):
        self.assertIsNone(program.proved("top", self.root))
        self.assertIsNone(program.note_proved("top", "sum", self.root))
        self.put("crates/top/out/top", "a program")
        self.assertIsNone(program.proved("top", self.root))
        program.note_proved("top", sum_of_proofs("top", self.root), self.root)
        self.assertEqual(program.proved("top", self.root), f"{self.root}/crates/top/out/top")
        self.put("crates/top/out/top", "another program")
        self.assertIsNone(program.proved("top", self.root))
        self.put("crates/top/out/top", "a program")
        self.put("crates/low/specs/Lib.antt", "-- another word\n")
        self.assertIsNone(program.proved("top", self.root))

    def test_what_is_kept_is_not_built_again_and_the_oldest_goes(self):
        built = []

        def build(name, to, stages):
            built.append(name)
            self.put(os.path.relpath(to, self.root), "built")
            program.shrink()

        with mock.patch.object(program, "KEPT", f"{self.root}/out/look"), mock.patch.object(program, "build", build):
            with mock.patch.object(program, "place", lambda name: f"{self.root}/out/look/{name}-1"):
                self.assertEqual(
                    [program.unproved("top", Stages("look", io.StringIO())) for _ in "12"],
                    [f"{self.root}/out/look/top-1"] * 2,
                )
            for number in range(program.MOST + 2):
                self.put(f"out/look/top-{number + 2}", "")
                os.utime(f"{self.root}/out/look/top-{number + 2}", (number, number))
            program.shrink()
            kept = [it for it in os.listdir(f"{self.root}/out/look") if "-" in it]
        self.assertEqual((built, len(kept), "top-1" in kept, "top-2" in kept), (["top"], program.MOST, True, False))


class Runs(unittest.TestCase):
    def ended(self, **parts):
        said = io.StringIO()
        with contextlib.ExitStack() as changed:
            for name, part in parts.items():
                changed.enter_context(mock.patch.object(main, name, part))
            changed.enter_context(mock.patch.object(main.signal, "signal"))
            ran = changed.enter_context(mock.patch.object(main.os, "execv"))
            changed.enter_context(contextlib.redirect_stderr(said))
            return main.main(["replay", "a.hwlg"]), said.getvalue(), ran.call_args

    def test_the_proved_program_comes_first_and_is_told_of(self):
        _, said, ran = self.ended(proved=lambda name: "/proved", unproved=lambda *_: "/unproved")
        self.assertIn("the proved program of these sources", said)
        self.assertEqual(ran.args, ("/proved", ["highway", "replay", "a.hwlg"]))

    def test_else_the_unproved_one(self):
        _, said, ran = self.ended(proved=lambda name: None, unproved=lambda *_: "/unproved")
        self.assertEqual((said, ran.args[0]), ("", "/unproved"))

    def test_what_fails_is_one_line_and_a_status_of_its_own(self):
        def fails(*_):
            raise BuildError("no kit")

        self.assertEqual(self.ended(proved=lambda name: None, unproved=fails), (main.NOT_BUILT, "look: no kit\n", None))

    def test_without_a_kit_it_says_which_one_is_wanted(self):
        said = io.StringIO()
        with mock.patch.object(program, "toolchain", lambda: None), mock.patch.object(program, "folder", lambda: None):
            with self.assertRaisesRegex(BuildError, kit.LINE):
                program.build("highway", "/nowhere", Stages("look", said))

    def test_the_kit_is_where_rt_doc_says(self):
        told = types.SimpleNamespace(returncode=0, stdout=f"{__file__}\n")
        with mock.patch.object(kit.shutil, "which", lambda _: "rt"), mock.patch.object(
            subprocess, "run", lambda *_, **__: told
        ):
            self.assertEqual(kit.folder(), os.path.dirname(os.path.realpath(__file__)))


if __name__ == "__main__":
    unittest.main()
