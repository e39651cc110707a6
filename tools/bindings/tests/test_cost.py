"""Tests of tools/bindings/cost.sh with made-up tools: what it counts, and that whatever fails is named."""

import os
import shutil
import subprocess
import sys
import tempfile
import unittest

SCRIPT = os.path.join(os.path.dirname(os.path.dirname(os.path.abspath(__file__))), "cost.sh")
NEEDED = "bash dirname mktemp realpath rm sed tail".split()
LOG = b"HWLG\1" + (3).to_bytes(4, "big") + b"abc" + b"an entry"
# Over a log with entries it counts 1,000 for the crate, 1,300 for it with one vertex a call, 900 for the program, and
# 1,200 for it in version 2; over none 100, 100, 200 and 300.
VALGRIND = """for log; do :; done
case "$3${4%"$log"}$log" in
*measuresingle*) full=1300 none=100 ;;
*measure*) full=1000 none=100 ;;
*short.hwlg) full=1200 none=300 ;;
*) full=900 none=200 ;;
esac
case "$log" in *none.*) count=$none ;; *) count=$full ;; esac
echo a report
echo "==1== Collected : $count" >&2
"""


class Costs(unittest.TestCase):
    def setUp(self):
        self.work = tempfile.mkdtemp()
        self.addCleanup(shutil.rmtree, self.work)
        os.mkdir(f"{self.work}/bin")
        for name in NEEDED:
            os.symlink(shutil.which(name), f"{self.work}/bin/{name}")
        self.tool("python3", f'exec "{os.path.realpath(sys.executable)}" "$@"\n')
        self.tool("cargo", "exit 0\n")
        self.tool("valgrind", VALGRIND)
        self.tool("../program", "exit 0\n")
        self.write("log", LOG)

    def write(self, name, data):
        with open(f"{self.work}/{name}", "wb") as it:
            it.write(data)

    def tool(self, name, text):
        self.write(f"bin/{name}", f"#!{shutil.which('sh')}\n{text}".encode())
        os.chmod(f"{self.work}/bin/{name}", 0o755)

    def ran(self, *words):
        how = {"env": {"PATH": f"{self.work}/bin", "HOME": self.work}, "cwd": self.work, "timeout": 20}
        words = words or ("program", "log")
        return subprocess.run([f"{self.work}/bin/bash", SCRIPT, *words], capture_output=True, text=True, **how)

    def stopped(self, status, said, *words):
        ran = self.ran(*words)
        self.assertEqual((ran.returncode, ran.stdout), (status, ""), ran.stderr)
        self.assertIn(said, ran.stderr)

    def test_counts_without_entries_are_taken_off(self):
        ran = self.ran()
        self.assertEqual((ran.returncode, ran.stderr), (0, ""))
        said = ["all in one call: through the crate 900, version 1 inside the program 700: 1.286"]
        said.append("one in a call: through the crate 1200, version 2 inside the program 900: 1.333")
        self.assertEqual(ran.stdout.splitlines(), said)

    def test_a_log_that_is_not_migrated_is_named(self):
        self.tool("../program", 'echo "append fault"; exit 5\n')
        self.stopped(1, "no log of version 2: append fault")

    def test_a_run_that_fails_is_named_with_what_it_said(self):
        self.tool("valgrind", 'echo "panicked at the log" >&2; exit 101\n')
        self.stopped(1, "panicked at the log")
        self.stopped(1, "status 101")
        self.stopped(1, "examples/measure")

    def test_the_program_that_fails_over_no_entry_is_named(self):
        self.tool("valgrind", VALGRIND + 'case "$3$log" in *program*none.hwlg) exit 8 ;; esac\n')
        self.stopped(1, "status 8")

    def test_a_run_that_counts_nothing_is_named(self):
        self.tool("valgrind", "exit 0\n")
        self.stopped(1, "instructions counted: ''")

    def test_a_crate_that_is_not_built_is_named(self):
        self.tool("cargo", 'echo "error: no such example" >&2; exit 101\n')
        self.stopped(1, "the crate isn't built")

    def test_a_log_that_costs_nothing_is_named(self):
        self.tool("valgrind", 'echo "==1== Collected : 5" >&2\n')
        self.stopped(1, "the deliveries cost nothing")

    def test_another_version_is_refused(self):
        self.write("log", LOG.replace(b"\1", b"\2"))
        self.stopped(2, "a log of version 1 is wanted")

    def test_words_and_tools_that_are_missing(self):
        self.stopped(2, "two words are wanted", "program")
        self.stopped(2, "no-program is no program", "no-program", "log")
        self.stopped(2, "there is no log no-log", "program", "no-log")
        os.remove(f"{self.work}/bin/valgrind")
        self.stopped(2, "there is no valgrind here")


if __name__ == "__main__":
    unittest.main()
