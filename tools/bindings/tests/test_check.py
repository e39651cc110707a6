"""Tests of tools/bindings/check.sh with made-up tools: what is left out with which word, and that what fails is named."""

import os
import shutil
import subprocess
import tempfile
import unittest

HERE = os.path.dirname(os.path.dirname(os.path.abspath(__file__)))
NEEDED = "bash dirname mktemp rm".split()
# The archive is built, and the numbers are the same.
PYTHON = """case "$2" in *bindings/archive.py) exit ${ARCHIVE:-0} ;; *bindings/declarations.py) exit ${NUMBERS:-0} ;; esac
case "$2" in *lens.py) echo "4 right 0 wrong ${WITHOUT:-0} without" ;; *) exit 9 ;; esac
"""
CARGO = """echo "cargo $*, archive ${HIGHWAY_LIB_DIR:-of the gate}"
case "$*" in *audit) echo "they ${AUDIT:-are in conflict} at height 0" ;; esac
exit ${CARGO:-0}
"""
# It writes a program that tells of so many deliveries.
CC = """for it; do file=$it; done
echo '#!%s\necho "${DELIVERED:-1000000} delivered 250000 final"' > "$file"
chmod +x "$file"
"""


class Steps(unittest.TestCase):
    def setUp(self):
        self.work = tempfile.mkdtemp()
        self.addCleanup(shutil.rmtree, self.work)
        for name in ("bin", "tools/bindings", "bindings/rust", "bindings/ed25519", "crates/ring-1"):
            os.makedirs(f"{self.work}/{name}")
        os.symlink(f"{HERE}/check.sh", f"{self.work}/tools/bindings/check.sh")
        for name in NEEDED:
            os.symlink(shutil.which(name), f"{self.work}/bin/{name}")
        os.symlink(shutil.which("chmod"), f"{self.work}/bin/chmod")
        self.script("tools/bindings/install.sh", "exit ${INSTALLED:-0}\n")
        self.tool("rt", "echo /kit/page.md\n")
        self.tool("python3", PYTHON)
        self.tool("cargo", CARGO)
        self.tool("cc", CC % shutil.which("sh"))
        self.tool("valgrind", "for it; do last=$it; done\nexit ${VALGRIND:-0}\n")

    def tool(self, name, text):
        self.script(f"bin/{name}", text)

    def script(self, path, text):
        with open(f"{self.work}/{path}", "w", encoding="utf-8") as it:
            it.write(f"#!{shutil.which('sh')}\n{text}")
        os.chmod(f"{self.work}/{path}", 0o755)

    def ran(self, *without, **said):
        """Runs it without these tools; returns its status, its own lines, and all that was said."""
        for name in without:
            os.remove(f"{self.work}/bin/{name}")
        env = {"PATH": f"{self.work}/bin", "PACKAGED_CRATES": f"{self.work}/crates", **said}
        how = {"env": env, "cwd": self.work, "timeout": 20}
        ran = subprocess.run(
            [f"{self.work}/bin/bash", "tools/bindings/check.sh"], capture_output=True, text=True, **how
        )
        lines = [it[len("bindings: ") :] for it in ran.stdout.splitlines() if it.startswith("bindings: ")]
        return ran.returncode, lines, ran.stdout + ran.stderr

    def test_with_all_tools_all_is_done(self):
        status, lines, said = self.ran()
        self.assertEqual(
            lines,
            [
                "the archive",
                "the tests of the crate",
                "its examples",
                "Ed25519 beside the vertices",
                "the programs in C",
                "a validator in C, and the installation",
                "two threads of one handle",
                "a million deliveries",
                "no leak, no bad access",
                "the numbers in all texts",
            ],
        )
        self.assertEqual(status, 0, said)

    def test_another_folder_of_the_archive_is_not_tested(self):
        said = self.ran(HIGHWAY_LIB_DIR="/unproved")[2]
        self.assertIn("cargo --offline test --quiet, archive of the gate", said)
        self.assertNotIn("/unproved", said)

    def test_each_tool_that_is_missing_is_told_of(self):
        for name, what in (("cargo", "the crate for Rust"), ("valgrind", "no leak, no bad access")):
            status, lines, said = self.ran(name)
            self.assertEqual(status, 0, said)
            self.assertIn(f"skipped, since there is no {name} here: {what}", lines)
        status, lines, said = self.ran("cc")
        self.assertEqual(status, 0, said)
        self.assertIn("skipped, since there is no cc here: the program in C", lines)
        self.assertNotIn("a million deliveries", lines)

    def test_without_the_packaged_crate_its_step_is_left_out(self):
        status, lines, said = self.ran(PACKAGED_CRATES="/nowhere")
        self.assertEqual(status, 0, said)
        self.assertIn("skipped, since there is no librust-ring-dev here: Ed25519", lines)

    def test_without_rt_or_python_there_is_no_archive(self):
        status, lines, said = self.ran("rt")
        self.assertEqual((status, lines[0]), (0, "skipped, since there is no rt here: all of it"), said)
        self.assertNotIn("the tests of the crate", lines)
        status, lines, said = self.ran("python3")
        self.assertEqual(status, 0, said)
        self.assertEqual(lines[-1], "skipped, since there is no python3 here: the numbers in all texts")

    def test_without_libraries_below_it_is_skipped(self):
        status, lines, _ = self.ran(ARCHIVE="3")
        self.assertEqual((status, lines[1]), (0, "skipped, since there is no archive"))
        self.assertNotIn("the tests of the crate", lines)

    def test_what_fails_is_named(self):
        for said, name in (
            ({"ARCHIVE": "1"}, "the archive"),
            ({"CARGO": "101"}, "the tests of the crate its examples Ed25519 beside the vertices"),
            ({"WITHOUT": "1"}, "Ed25519 beside the vertices"),
            ({"INSTALLED": "1"}, "a validator in C, and the installation"),
            ({"AUDIT": "agree"}, "its examples"),
            ({"DELIVERED": "999999"}, "a million deliveries"),
            ({"VALGRIND": "1"}, "no leak, no bad access"),
            ({"NUMBERS": "1"}, "the numbers in all texts"),
        ):
            status, lines, _ = self.ran(**said)
            self.assertEqual((status, lines[-1]), (1, f"failed: {name}"))

    def test_a_program_that_does_not_compile_is_named(self):
        self.tool("cc", "exit 1\n")
        status, lines, _ = self.ran()
        self.assertEqual((status, lines[-1]), (1, "failed: the programs in C"))


if __name__ == "__main__":
    unittest.main()
