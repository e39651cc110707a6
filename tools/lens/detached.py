"""Signatures that stand beside the vertices: a side file by slots, and Ed25519 keys that judge it."""
import os
import shutil
import subprocess
import tempfile

from lens.log import InputError, digest_of, read_file, read_keys

HEAD = b"HWSG\x01"
MOST = 4096
# What stands before the 32 bytes of an Ed25519 key, so that OpenSSL takes it.
PREFIX = bytes.fromhex("302a300506032b6570032100")


def read_signatures(path):
    """The signatures of a side file, by their slots: the SHA-256 digest of each."""
    data = read_file(path)
    if not data.startswith(HEAD):
        raise InputError(path, "no file of signatures", 0)
    found, at = {}, len(HEAD)
    while at < len(data):
        length = int.from_bytes(data[at : at + 2])
        if at + 2 > len(data) or (1 <= length <= MOST and at + 2 + length > len(data)):
            raise InputError(path, f"torn at {at}", at)
        if not 1 <= length <= MOST:
            raise InputError(path, f"signature length at {at}", at)
        signature = data[at + 2 : at + 2 + length]
        found[digest_of(signature)] = signature
        at += 2 + length
    return found


def message(digest, is_endorsement):
    """What a validator signs: a word for the kind, and the unit's digest."""
    return (b"highway endorsement\0" if is_endorsement else b"highway unit\0") + digest


class PublicKeys:
    """Ed25519 keys by validator, with the signatures of a side file. OpenSSL judges each signature once."""

    def __init__(self, keys, signatures):
        self.keys, self.signatures, self.judged = keys, signatures, {}
        if shutil.which("openssl") is None:
            raise InputError("openssl", "isn't there, and Ed25519 signatures are judged by it")

    def is_right(self, validator, digest, slot, is_endorsement):
        """Whether the slot has a signature beside it, which is the validator's."""
        question = (validator, digest, slot, is_endorsement)
        if question not in self.judged:
            self.judged[question] = self.judge(*question)
        return self.judged[question]

    def judge(self, validator, digest, slot, is_endorsement):
        if validator >= len(self.keys) or slot not in self.signatures:
            return False
        with tempfile.TemporaryDirectory() as room:
            names = {}
            for name, data in {
                "key": PREFIX + self.keys[validator],
                "signature": self.signatures[slot],
                "message": message(digest, is_endorsement),
            }.items():
                names[name] = os.path.join(room, name)
                with open(names[name], "wb") as file:
                    file.write(data)
            words = ["openssl", "pkeyutl", "-verify", "-pubin", "-keyform", "DER", "-inkey", names["key"], "-rawin"]
            words += ["-in", names["message"], "-sigfile", names["signature"]]
            return subprocess.run(words, capture_output=True, check=False).returncode == 0


def read_scheme(arguments, count):
    """The keys of the words: those of a test network, or public keys where a side file is named."""
    keys = read_keys(arguments.keys, count)
    if not arguments.signatures:
        return keys
    beside = [read_signatures(path) for path in arguments.signatures]
    return PublicKeys(keys, {slot: signature for each in beside for slot, signature in each.items()})
