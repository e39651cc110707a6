"""Tests of flipped_bits.py."""

import contextlib
import io
import tempfile
import unittest
from dataclasses import replace
from pathlib import Path
from unittest import mock

from trials import flipped_bits
from trials.fake_program import fake_program
from trials.flipped_bits import DATA, KEYS, NOTHING, REFUSED, SAME, SETTINGS
from lens.log import InputError, read_keys, read_log, spelled_log

SIGNED = read_log(DATA / "signed.hwlg")


def reader(_program, log):
    """In place of a replay: what this repository's own reader makes of a log, signatures left out."""
    try:
        read = read_log(log)
    except InputError:
        return 2, b""
    if read.torn is not None:
        return 2, b""
    return 0, repr((read.config, [(entry.verdict, entry.vertex.unit) for entry in read.entries])).encode()


class Tellers(unittest.TestCase):
    """Who tells that a log isn't as it was written."""

    def told(self, data):
        with tempfile.TemporaryDirectory() as folder:
            log = Path(folder) / "a.log"
            log.write_bytes(data)
            return flipped_bits.who_tells(log, SIGNED.config, read_keys(DATA / "three.keys"))

    def spelled(self, *verdicts):
        return spelled_log(SIGNED.config, [(verdict, entry.vertex) for verdict, entry in zip(verdicts, SIGNED.entries)])

    def test_nothing_of_a_log_as_it_was_written(self):
        self.assertEqual(self.told(self.spelled(True, True, True, True)), NOTHING)

    def test_the_keys_of_a_verdict_and_of_a_signature(self):
        self.assertEqual(self.told(self.spelled(True, False, True, True)), KEYS)
        whole = self.spelled(True, True, True, True)
        self.assertEqual(self.told(whole[:-1] + bytes([whole[-1] ^ 1])), KEYS)

    def test_the_settings(self):
        other = replace(SIGNED.config, records=SIGNED.config.records - 1)
        self.assertEqual(self.told(spelled_log(other, [(True, entry.vertex) for entry in SIGNED.entries])), SETTINGS)

    def test_nothing_of_a_log_that_is_shorter_by_an_entry(self):
        self.assertEqual(self.told(self.spelled(True, True, True)), NOTHING)


class Tries(unittest.TestCase):
    def main(self, *words):
        out = io.StringIO()
        with contextlib.redirect_stdout(out):
            status = flipped_bits.main(list(words))
        return status, out.getvalue()

    def test_each_flip_that_reads_otherwise_is_told(self):
        with mock.patch.object(flipped_bits, "report", reader):
            status, said = self.main("program", "--flips", "1000")
        self.assertEqual(status, 0, said)
        self.assertIn("1000 logs with one flipped bit of 655 bytes\n", said)
        for kind in (REFUSED, SAME, SETTINGS, KEYS):
            self.assertNotRegex(said, f"(?m)^ +0 {kind}$")

    def test_a_flip_that_nothing_tells(self):
        """Keys that find nothing wrong, beside a replay that shows each bit."""
        with mock.patch.object(flipped_bits, "report", lambda _, log: (0, log.read_bytes())):
            with mock.patch.object(flipped_bits, "is_signed", return_value=True):
                status, said = self.main("program", "--flips", "50")
        self.assertEqual(status, 1)
        self.assertRegex(said, "bit [0-7] of byte [0-9]+: nothing tells\n")

    def test_the_program_is_asked_for_a_replay(self):
        with tempfile.TemporaryDirectory() as folder:
            said = "print(len(read(words[0]))); sys.exit(2 * (read(words[0])[:4] != b'HWLG'))"
            status, said = self.main(str(fake_program(folder, replay=said)), "--flips", "10")
        self.assertEqual(status, 0)
        self.assertRegex(said, f"10 {SAME}|[0-9] {REFUSED}")

    def test_a_log_of_other_keys_is_refused(self):
        with self.assertRaisesRegex(SystemExit, "isn't signed by"):
            self.main("program", str(DATA / "signed.hwlg"), str(DATA / "keys"))


if __name__ == "__main__":
    unittest.main()
