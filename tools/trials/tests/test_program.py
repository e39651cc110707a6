"""What no clause says of `main`: which files it locks, looks at and tells of. Tried where the program is built, or where
the environment variable HIGHWAY names it."""

import contextlib
import os
import shutil
import subprocess
import tempfile
import time
import unittest
from pathlib import Path

from rejoin.main import free_port

DATA = Path(__file__).resolve().parents[3] / "crates" / "highway" / "data"
PROGRAM = Path(os.environ.get("HIGHWAY", DATA.parent / "out" / "highway")).absolute()
INSTANCE = "instance [0-9a-f]{64}, weights 3 in all"


@unittest.skipUnless(PROGRAM.exists(), "the program isn't built")
class Programs(unittest.TestCase):
    def setUp(self):
        folder = tempfile.TemporaryDirectory()
        self.addCleanup(folder.cleanup)
        self.folder = Path(folder.name)
        for name in ("settings.json", "keys"):
            shutil.copy(DATA / name, self.folder)

    def run_to_end(self, *words):
        return subprocess.run(
            [PROGRAM, *map(str, words)], cwd=self.folder, capture_output=True, text=True, timeout=60, check=False
        )

    @contextlib.contextmanager
    def hub(self, log="a.log"):
        """What a hub tells that runs on this log and has made it."""
        words = [PROGRAM, "serve", "settings.json", "keys", log, f"127.0.0.1:{free_port()}", "65536"]
        with open(self.folder / "err", "wb") as err, subprocess.Popen(
            words, cwd=self.folder, stdout=subprocess.DEVNULL, stderr=err
        ) as hub:
            try:
                until = time.monotonic() + 20
                while not (self.folder / log).exists() and time.monotonic() < until:
                    time.sleep(0.05)
                time.sleep(0.5)
                yield (self.folder / "err").read_text(encoding="utf-8")
            finally:
                hub.kill()

    def run_validator(self, log="a.log", turns=1):
        return self.run_to_end("run", "settings.json", "keys", log, 0, turns, f"127.0.0.1:{free_port()}")

    def test_a_log_that_another_process_has_is_refused(self):
        with self.hub():
            for words in (
                ("serve", "settings.json", "keys", "a.log", f"127.0.0.1:{free_port()}", 1),
                ("run", "settings.json", "keys", "a.log", 0, 1, f"127.0.0.1:{free_port()}"),
                ("meet", "settings.json", "keys", "a.log", f"127.0.0.1:{free_port()}"),
            ):
                done = self.run_to_end(*words)
                self.assertEqual((done.returncode, done.stdout), (4, "read fault\n"), words)
                self.assertIn("highway: a.log: another process has it", done.stderr)

    def test_a_new_log_is_told_with_its_whole_path(self):
        with self.hub() as told:
            self.assertEqual(told, f"highway: a.log: makes a new log: {(self.folder / 'a.log').resolve()}\n")

    def test_the_file_of_the_values_is_no_log(self):
        for name in ("highway.blocks", "./highway.blocks", self.folder / "highway.blocks"):
            done = self.run_validator(name)
            self.assertEqual((done.returncode, done.stdout), (4, "read fault\n"))
            self.assertFalse((self.folder / "highway.blocks").exists())

    def test_a_log_whose_entry_is_not_signed_by_the_keys_does_not_start(self):
        for _ in range(50):
            if b"made" in self.run_validator(turns=20).stdout.encode():
                break
        log = self.folder / "a.log"
        log.write_bytes(log.read_bytes()[:-32] + bytes(32))
        before = log.read_bytes()
        done = self.run_validator()
        self.assertEqual((done.returncode, done.stdout, log.read_bytes()), (4, "read fault\n", before))
        self.assertRegex(done.stderr, r"\Ahighway: a.log: the entry at byte \d+ isn't signed by the keys\n")

    def test_a_certificate_without_a_log_is_told_as_its_own(self):
        shutil.copy(DATA / "four.hwct", self.folder)
        alone = self.run_to_end("check", "four.hwct", "keys")
        self.assertRegex(alone.stderr, INSTANCE)
        self.assertIn("They are the certificate's own", alone.stderr)
        shutil.copy(DATA / "four.hwlg", self.folder)
        self.assertEqual(self.run_to_end("check", "four.hwct", "keys", "four.hwlg").stderr, "")


if __name__ == "__main__":
    unittest.main()
