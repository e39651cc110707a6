"""`verify` finds each flipped byte of a signature, in logs of both versions."""
import contextlib
import io
import pathlib
import random
import tempfile
import unittest

from lens.main import main
from lens.example import EXAMPLE_ORDER, running_example
from lens.log import read_log, spelled_log

FLIPS = 100


class Verify(unittest.TestCase):
    def setUp(self):
        room = tempfile.TemporaryDirectory(prefix="lens-")
        self.addCleanup(room.cleanup)
        self.room = pathlib.Path(room.name)
        self.world = running_example()
        (self.room / "keys").write_bytes(b"".join(key.hex().encode() + b"\n" for key in self.world.keys))

    def verify(self, data):
        """The status and the lines of `verify` on a log of these bytes."""
        (self.room / "a.hwlg").write_bytes(data)
        said = io.StringIO()
        with contextlib.redirect_stdout(said):
            status = main(["verify", str(self.room / "a.hwlg"), str(self.room / "keys")])
        return status, said.getvalue().splitlines()

    def said(self, version):
        return spelled_log(self.world.config, self.world.pairs(EXAMPLE_ORDER + " d0/f0"), version)

    def signature_bytes(self, data):
        """The places of all bytes of signatures, each with its entry's place."""
        (self.room / "b.hwlg").write_bytes(data)
        found = []
        for entry in read_log(self.room / "b.hwlg").entries:
            end = entry.offset + entry.length
            found += [(at, entry.place) for at in range(end - 32, end)]
            if entry.kind == 2:
                left = data.index(entry.vertex.left.signature, entry.offset)
                found += [(at, entry.place) for at in range(left, left + 32)]
        return found

    def test_a_good_log(self):
        for version in (1, 2):
            status, lines = self.verify(self.said(version))
            self.assertEqual(status, 0)
            self.assertEqual(lines[-1], "verdicts that aren't what the keys say: 0")
            kinds = "11 units, 1 evidence, 2 endorsements"
            self.assertEqual(lines[0], f"14 entries ({kinds}): 14 with good signatures, 0 without")

    def test_each_flipped_byte_is_found(self):
        for version in (1, 2):
            said, chance = self.said(version), random.Random(version)
            for at, place in chance.sample(self.signature_bytes(said), FLIPS):
                flipped = bytearray(said)
                flipped[at] ^= 1 << chance.randrange(8)
                status, lines = self.verify(bytes(flipped))
                self.assertEqual(status, 1)
                self.assertTrue(lines[0].startswith(f"entry {place} at byte "), lines[0])
                self.assertEqual(lines[-1], "verdicts that aren't what the keys say: 1")

    def test_a_wrong_verdict_over_a_good_signature(self):
        for version in (1, 2):
            said = spelled_log(self.world.config, [(False, vertex) for _, vertex in self.world.pairs("a0 b0")], version)
            status, lines = self.verify(said)
            self.assertEqual((status, len(lines)), (1, 4))
            self.assertIn("verdict 0, and the keys say 1", lines[0])

    def test_a_torn_end_is_told(self):
        said = self.said(1)
        status, lines = self.verify(said[:-5])
        self.assertEqual(status, 0)
        self.assertTrue(lines[-1].startswith("torn at "))


if __name__ == "__main__":
    unittest.main()
