"""Tests of check_documents.py, over a small repository of their own."""

import contextlib
import io
import tempfile
import unittest
from pathlib import Path

from gate import check_documents

TABLE = """| Crate | What it is |
|---|---|
| hw_low | the values |
| hw_high | the rest |
"""


class Documents(unittest.TestCase):
    def setUp(self):
        room = tempfile.TemporaryDirectory()
        self.addCleanup(room.cleanup)
        self.root = Path(room.name)
        for path, text in {
            "crates.txt": "# values\nhw_low:\nhw_high: hw_low sha2\n",
            "crates/hw_low/src/lib.rt": "pub fn deliver() {}\n",
            "docs/ARCHITECTURE.md": TABLE,
            "README.md": "See [the crates](docs/ARCHITECTURE.md): `deliver` of hw_low, in `crates/hw_low`.\n",
        }.items():
            self.put(path, text)

    def put(self, path, text):
        file = self.root / path
        file.parent.mkdir(parents=True, exist_ok=True)
        file.write_text(text, encoding="utf-8")

    def said(self):
        out = io.StringIO()
        with contextlib.redirect_stdout(out), contextlib.redirect_stderr(out):
            status = check_documents.main([str(self.root)])
        return status, out.getvalue()

    def test_all_is_there(self):
        self.assertEqual(self.said(), (0, "documents: each name is there\n"))

    def test_a_link_without_a_file(self):
        self.put("README.md", "See [it](docs/NONE.md).\n")
        self.assertEqual(self.said()[0], 1)
        self.assertIn("README.md:1: links to docs/NONE.md", self.said()[1])

    def test_the_marks_of_a_merge(self):
        self.put("README.md", "<<<<<<< HEAD\none\n=======\nother\n>>>>>>> side\n")
        status, said = self.said()
        self.assertEqual((status, said.count("is the mark of a merge")), (1, 3))

    def test_a_crate_that_is_none(self):
        self.put("README.md", "\nIn hw_none.\n")
        self.assertIn("README.md:2: names hw_none", self.said()[1])

    def test_a_call_that_is_nowhere(self):
        self.put("README.md", "By `Core::undeliver`.\n")
        self.assertIn("undeliver stands nowhere", self.said()[1])

    def test_quoted_blocks_are_left_out(self):
        self.put("README.md", "```text\n`undeliver` hw_none\n```\n")
        self.assertEqual(self.said()[0], 0)

    def test_a_crate_without_a_row(self):
        self.put("crates.txt", "hw_low:\nhw_high: hw_low sha2\nhw_new: hw_low\n")
        self.assertIn("no row names the crate hw_new", self.said()[1])

    def test_a_long_line(self):
        self.put("README.md", "a" * 121 + "\n")
        self.assertIn("has 121 columns", self.said()[1])

    def test_a_long_line_with_a_link(self):
        self.put("README.md", "a " * 60 + "[b](docs/ARCHITECTURE.md)\n")
        self.assertIn("README.md:1: has 145 columns", self.said()[1])

    def test_an_unsafe_impl_without_its_proof(self):
        self.put("crates/hw_low/src/far/hand.rt", "unsafe impl Send for Hand {}\n")
        self.put("crates/hw_high/src/lib.rt", "unsafe impl<T> Sync for Top {}\n")
        self.assertIn("has no proof crates/hw_low/proofs/far/hand/Hand/TheSendSync/Send.antt", self.said()[1])
        self.assertIn("has no proof crates/hw_high/proofs/Top/TheSendSync/Sync.antt", self.said()[1])
        self.put("crates/hw_low/proofs/far/hand/Hand/TheSendSync/Send.antt", "send = tt\n")
        self.put("crates/hw_high/proofs/Top/TheSendSync/Sync.antt", "sync = tt\n")
        self.assertEqual(self.said()[0], 0)

    def test_unsafe_code_that_no_page_tells(self):
        self.put("docs/PROVED.md", "Trusted: `crates/hw_low/src/raw.rt`.\n")
        self.put("crates/hw_low/src/raw.rt", "    unsafe { at() }\n")
        self.put("crates/hw_high/src/lib.rt", "// Nothing is unsafe here.\n")
        self.assertEqual(self.said()[0], 0)
        self.put("crates/hw_high/src/lib.rt", '#[unsafe(no_mangle)]\npub extern "C" fn top() {}\n')
        self.assertIn("nothing is said of crates/hw_high/src/lib.rt", self.said()[1])

    def test_no_repository(self):
        self.assertEqual(check_documents.main([str(self.root / "docs")]), 2)


if __name__ == "__main__":
    unittest.main()
