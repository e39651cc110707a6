"""Tests of signatures beside a log: the side file, and Ed25519 keys that judge a log by it."""

import contextlib
import hashlib
import io
import shutil
import subprocess
import tempfile
import unittest
from dataclasses import replace
from pathlib import Path

from lens.detached import HEAD, PREFIX, message, read_signatures
from lens.example import EXAMPLE_ORDER, running_example
from lens.log import InputError, spelled_log
from lens.main import main


def openssl(*words):
    return subprocess.run(["openssl", *words], capture_output=True, check=True).stdout


@unittest.skipUnless(shutil.which("openssl"), "there is no openssl here")
class SideFile(unittest.TestCase):
    """The running example, each unit signed by Ed25519, its slot the digest of the signature."""

    def setUp(self):
        room = tempfile.TemporaryDirectory()
        self.addCleanup(room.cleanup)
        self.room = Path(room.name)
        self.world = running_example()
        self.signatures = []
        for who in range(len(self.world.config.weights)):
            openssl("genpkey", "-algorithm", "ed25519", "-out", self.room / f"secret{who}")
        publics = [self.public(who) for who in range(len(self.world.config.weights))]
        (self.room / "keys").write_text("".join(f"{key.hex()}\n" for key in publics))
        pairs = [(verdict, self.signed(vertex)) for verdict, vertex in self.world.pairs(EXAMPLE_ORDER)]
        (self.room / "log").write_bytes(spelled_log(self.world.config, pairs))
        self.put(self.signatures)

    def public(self, who):
        told = openssl("pkey", "-in", self.room / f"secret{who}", "-pubout", "-outform", "DER")
        self.assertEqual(told[: len(PREFIX)], PREFIX)
        return told[len(PREFIX) :]

    def signed(self, vertex):
        """The unit of the example with its slot, and its signature in the list."""
        unit = getattr(vertex, "unit", None)
        if not hasattr(unit, "creator"):
            return vertex
        said = self.room / "said"
        said.write_bytes(message(unit.digest, False))
        secret = self.room / f"secret{unit.creator}"
        signature = openssl("pkeyutl", "-sign", "-inkey", secret, "-rawin", "-in", said)
        self.signatures.append(signature)
        return replace(vertex, signature=hashlib.sha256(signature).digest())

    def put(self, signatures):
        entries = b"".join(len(it).to_bytes(2) + it for it in signatures)
        (self.room / "side").write_bytes(HEAD + entries)

    def verify(self):
        out = io.StringIO()
        with contextlib.redirect_stdout(out), contextlib.redirect_stderr(out):
            status = main(
                [
                    "verify",
                    str(self.room / "log"),
                    str(self.room / "keys"),
                    "--no-progress",
                    "--signatures",
                    str(self.room / "side"),
                ]
            )
        return status, out.getvalue()

    def test_all_are_right(self):
        status, said = self.verify()
        units = len(self.signatures)
        self.assertIn(f"{units} with good signatures, ", said)
        self.assertEqual(said.count("BAD"), said.count("endorsement of"))
        self.assertIn(status, (0, 1))

    def test_a_flipped_byte_is_found(self):
        before = self.verify()[1]
        first = bytearray(self.signatures[0])
        first[0] ^= 1
        self.put([bytes(first), *self.signatures[1:]])
        self.assertEqual(self.verify()[1].count("BAD"), before.count("BAD") + 1)

    def test_one_that_isnt_there_is_found(self):
        before = self.verify()[1]
        self.put(self.signatures[1:])
        self.assertEqual(self.verify()[1].count("BAD"), before.count("BAD") + 1)

    def test_bad_files_have_a_place(self):
        for data, told in (
            (b"HWLG\x01", "no file"),
            (HEAD + b"\0", "torn at 5"),
            (HEAD + b"\0\0", "length at 5"),
            (HEAD + b"\0\x04abc", "torn at 5"),
            (HEAD + b"\0\x01a\x10\x01", "length at 8"),
        ):
            (self.room / "side").write_bytes(data)
            with self.assertRaises(InputError) as raised:
                read_signatures(self.room / "side")
            self.assertIn(told, str(raised.exception))


if __name__ == "__main__":
    unittest.main()
