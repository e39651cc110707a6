"""Settings, certificates and their instances, read by the formats; the evidence of two logs as a file of its own."""
import json
import unittest

from lens.certificate import read_certificate
from lens.log import InputError, read_log, spelled_vertex
from lens.program import has_program, need_program
from lens.settings import read_settings
from lens.tests.test_commands import DATA, NO_PROGRAM, Commands

GOOD = {"weights": [1, 2], "threshold": 0, "levels": 1, "exponents": [4, 8], "leaders": [0, 1]}


class Settings(Commands):
    def read(self, text):
        return read_settings(self.file(text.encode(), "settings.json"))

    def test_shipped_settings_have_the_instance_of_the_logs(self):
        log = read_log(DATA / "signed.hwlg")
        self.assertEqual(read_settings(DATA / "three.json").instance, log.config.instance)

    def test_members(self):
        drawn = GOOD | {"leaders": {"drawn": "ab" * 32}, "records": 5, "parked": 6, "end": 7}
        config = self.read(json.dumps(drawn))
        self.assertEqual((config.leaders, config.records, config.parked, config.end), (b"\xab" * 32, 5, 6, 7))
        self.assertEqual(self.read(json.dumps(GOOD)).records, 131072)
        self.assertEqual(self.read(json.dumps(GOOD)[:-1] + ', "levels": 2}').levels, 2)

    def test_other_texts_are_refused(self):
        texts = [
            "",
            "[]",
            "{}",
            json.dumps(GOOD | {"more": 1}),
            json.dumps({**GOOD, "levels": 256}),
            json.dumps(GOOD) + "x",
        ]
        for name, value in (
            ("threshold", -1),
            ("threshold", 1.0),
            ("threshold", True),
            ("weights", [1 << 64]),
            ("exponents", [4]),
            ("leaders", {"drawn": "AB" * 32}),
            ("leaders", {"drawn": "ab" * 32, "x": 1}),
            ("end", None),
        ):
            texts.append(json.dumps(GOOD | {name: value}))
        texts += [json.dumps(GOOD).replace('"threshold": 0', f'"threshold": {zero}') for zero in ("-0", "0e0", "NaN")]
        for text in texts:
            with self.assertRaises(InputError, msg=text) as caught:
                self.read(text)
            self.assertEqual(caught.exception.text, "config form", text)
        with self.assertRaises(InputError) as caught:
            self.read(json.dumps(GOOD | {"weights": [1, 0]}))
        self.assertEqual(caught.exception.text, "config zero weight 1")

    def test_instance(self):
        said = {self.lens("instance", DATA / name)[:2] for name in ("three.json", "signed.hwlg", "four.hwct")}
        self.assertEqual(len(said), 1)
        status, text = said.pop()
        self.assertEqual(
            (status, text.splitlines()[0]), (0, f"instance {read_log(DATA / 'four.hwlg').config.instance.hex()}")
        )
        self.assertEqual(self.lens("instance", DATA / "keys")[0], 2)


class Certificates(Commands):
    def test_entries_of_a_certificate(self):
        status, said, _ = self.lens("entries", DATA / "four.hwct")
        lines = said.splitlines()
        self.assertEqual((status, lines[1]), (0, f"block {read_certificate(DATA / 'four.hwct').block.hex()}"))
        self.assertEqual([line.split()[-2] for line in lines[6:10]], ["admitted"] * 4)
        self.assertIn("no verdicts", lines[-1])
        self.assertEqual(len(self.lens("entries", DATA / "four.hwct", "--entries", "2..3")[1].splitlines()), 9)

    @unittest.skipUnless(has_program(), NO_PROGRAM)
    def test_faults_are_those_of_the_program(self):
        whole, broken = (DATA / "four.hwct").read_bytes(), self.room / "broken.hwct"
        cuts = [whole[:size] for size in (5, 8, 9, 40, 73, 105, 109, 112, 120, len(whole) - 1)] + [
            whole + b"x",
            b"HWCT\2" + whole[5:],
        ]
        flips = [
            whole[:at] + bytes([whole[at] ^ 0xFF]) + whole[at + 1 :]
            for at in (5, 9, 10, 17, 40, 105, 109, 113, 114, 150, 217)
        ]
        for data in cuts + flips:
            broken.write_bytes(data)
            said = need_program().call("check", broken, DATA / "three.keys")[1]
            try:
                read_certificate(broken)
            except InputError as error:
                self.assertEqual(f"{error}\n", said, len(data))
            else:
                self.assertFalse(said.startswith("input"), said)
                self.assertIn(self.lens("entries", broken)[0], (0, 2))


@unittest.skipUnless(has_program(), NO_PROGRAM)
class Accusations(Commands):
    def test_evidence_of_two_logs_is_a_file_that_anybody_checks(self):
        out, keys = self.room / "pairs.hwlg", DATA / "three.keys"
        words = ("evidence", DATA / "signed.hwlg", DATA / "signed-other.hwlg", "--keys", keys, "--out", out)
        status, said, _ = self.lens(*words)
        self.assertEqual((status, said.count("good by the keys"), said.count("in /")), (0, 2, 2))
        self.assertEqual(self.lens("verify", out, keys)[0], 0)
        self.assertEqual(need_program().call("replay", out)[1].splitlines()[1], "faulty 1")
        [entry] = read_log(out).entries
        self.assertEqual((entry.name, spelled_vertex(entry.vertex)[0]), ("evidence", 2))
        self.assertEqual(self.lens(*words)[0], 2)
        self.assertEqual(self.lens(*words, "--force")[0], 0)

    def test_logs_that_agree_give_none(self):
        out = self.room / "pairs.hwlg"
        status, said, _ = self.lens("evidence", DATA / "four.hwlg", DATA / "both.hwlg", "--out", out)
        self.assertEqual((status, out.exists(), "nothing is written" in said), (0, False, True))

    def test_the_faulty_of_one_log(self):
        out = self.room / "pairs.hwlg"
        self.assertEqual(self.lens("evidence", DATA / "both.hwlg", "--out", out)[0], 0)
        self.assertEqual(need_program().call("replay", out)[1].splitlines()[1], "faulty 1")

    def test_why_with_keys(self):
        status, said, _ = self.lens(
            "why", DATA / "signed.hwlg", DATA / "signed-other.hwlg", "--keys", DATA / "three.keys"
        )
        self.assertEqual((status, said.count("good by the keys"), said.count("is right.")), (0, 2, 2))
        self.assertNotIn("run `verify`", said)
        status, said, _ = self.lens("why", DATA / "four.hwlg", DATA / "other.hwlg", "--keys", DATA / "three.keys")
        self.assertEqual((status, said.count("4 of 4 entries have a WRONG verdict")), (1, 2))


if __name__ == "__main__":
    unittest.main()
