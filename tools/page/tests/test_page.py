"""The page as a person uses it, in Chromium without a window: files are set into its input, and its texts are held
against the program's, and against an independent reference's answers."""

import contextlib
import io
import random
import re
import shutil
import subprocess
import unittest
from dataclasses import replace
from pathlib import Path

from lens.log import SignedUnit, digest_of, is_signed, read_keys, read_log, spelled_log, with_digest
from lens.main import main
from page.main import MOST, page
from page.tests.given import program
from page.tests.on_page import CASES, DATA, LOGS, OnPage, stored
from view.parts import policy

RANDOM, LONG = 200, 100_000_000
MARKUP = b'</script><script>document.title="x"</script><img src=x onerror=alert(1)>'


def openssl(*words, given=None):
    ran = subprocess.run(["openssl", *map(str, words)], input=given, capture_output=True, check=True)
    return ran.stdout


def with_public_keys(log, room):
    """The log's units as signed by Ed25519: the log, the side file, and the public keys, each as bytes."""
    keys = [Path(room, f"{who}.pem") for who in range(len(log.config.weights))]
    for key in keys:
        openssl("genpkey", "-algorithm", "ed25519", "-out", key)
    side, pairs, message = b"HWSG\x01", [], Path(room, "message")
    for entry in log.entries:
        unit = entry.vertex.unit
        message.write_bytes(b"highway unit\0" + unit.digest)
        signature = openssl("pkeyutl", "-sign", "-inkey", keys[unit.creator], "-rawin", "-in", message)
        side += len(signature).to_bytes(2) + signature
        pairs.append((1, SignedUnit(unit, digest_of(signature))))
    public = [openssl("pkey", "-in", key, "-pubout", "-outform", "DER")[-32:].hex() + "\n" for key in keys]
    return spelled_log(log.config, pairs), side, "".join(public).encode()


def changed(log, choose):
    """The log's bytes, in one of both versions, with some entries left out, repeated, out of order, or badly signed."""
    pairs = [(entry.verdict, entry.vertex) for entry in log.entries if choose.random() < 0.9]
    for _ in range(choose.randrange(4)):
        pairs.insert(choose.randrange(len(pairs) + 1), choose.choice(pairs or [(1, log.entries[0].vertex)]))
    for _ in range(choose.randrange(3)):
        place = choose.randrange(len(pairs) or 1)
        pairs[place : place + 2] = pairs[place : place + 2][::-1]
    return spelled_log(
        log.config, [(verdict and choose.random() < 0.98, vertex) for verdict, vertex in pairs], choose.choice((1, 2))
    )


class Text(unittest.TestCase):
    def test_the_page_reaches_nothing(self):
        text = page(b"module", "0" * 64, False)
        self.assertLess(len(text), MOST)
        self.assertEqual(re.findall(r'(?:src|href)="', text), [])
        self.assertEqual(re.findall(r"https?://[^\"]*", text), ["http://www.w3.org/2000/svg"])
        self.assertIn("NOTHING IS PROVED", text)
        self.assertNotIn("NOTHING IS PROVED", page(b"module", "0" * 64, True))

    def test_the_policy_names_the_script_and_the_style(self):
        said = policy("style", "script")
        self.assertTrue(said.startswith("default-src 'none'; script-src 'sha256-"))
        self.assertNotIn("unsafe-inline", said)


class AsAPerson(OnPage):
    # ---- against the program

    def test_each_log_is_replayed_as_the_program_does(self):
        for path in LOGS:
            self.assertEqual(self.dropped("replay", path), [self.said("replay", path)], path.name)

    def test_each_log_of_the_cases_too(self):
        for path in CASES:
            if path.read_bytes().startswith(b"HWLG"):
                self.assertEqual(self.dropped("replay", path), [self.said("replay", path)], path.name)
            else:
                self.assertEqual(self.dropped("replay", path), [], path.name)
                self.assertIn(f"{path.name} is no log, no certificate and no keys.", self.shown())

    def test_each_log_of_version_2_too(self):
        for path in LOGS:
            log = read_log(path)
            pairs = [(entry.verdict, entry.vertex) for entry in log.entries]
            second = self.write(f"2-{path.name}", spelled_log(log.config, pairs, 2))
            self.assertEqual(self.dropped("replay", second), [self.said("replay", second)], path.name)

    def test_logs_in_another_order_are_replayed_as_the_program_does(self):
        path = self.write("ordered.hwlg", b"")
        for source in LOGS:
            log = read_log(source)
            pairs = [(entry.verdict, entry.vertex) for entry in log.entries]
            unsigned = [(0, vertex) for _, vertex in pairs[:1]] + pairs[1:]
            for changed in ([], pairs[::-1], pairs[:1] + pairs, pairs[1:], unsigned):
                for version in (1, 2):
                    path.write_bytes(spelled_log(log.config, changed, version))
                    self.assertEqual(self.dropped("replay", path), [self.said("replay", path)], source.name)

    def test_random_logs_and_pairs_are_answered_as_the_program_does(self):
        left, right, kinds = self.write("left.hwlg", b""), self.write("right.hwlg", b""), set()
        logs = [data for data, _ in stored("logs.bin", "answers.txt", 1)]
        conflict = [read_log(DATA / name) for name in ("signed.hwlg", "signed-other.hwlg")]
        for seed in range(RANDOM):
            choose = random.Random(seed)
            left.write_bytes(choose.choice(logs))
            sources = [read_log(left)] * 2 if choose.random() < 0.7 else conflict
            for path, log in zip((left, right), sources):
                path.write_bytes(changed(log, choose))
            told = self.said("audit", left, right)
            self.assertEqual(self.dropped("audit", left, right), [told], seed)
            self.assertEqual(self.browser.printed("replay"), [self.said("replay", it) for it in (left, right)], seed)
            kinds.add(told.split(" ")[0])
        self.assertLessEqual({"agree", "conflict"}, kinds)

    def test_logs_that_have_no_audit_are_answered_as_the_program_does(self):
        whole, other = (DATA / "signed.hwlg").read_bytes(), (DATA / "left.hwlg").read_bytes()
        left, right = self.write("left.hwlg", b""), self.write("right.hwlg", b"")
        for pair in (
            (whole[:-1], whole),
            (whole, whole[:-1]),
            (whole, other[:-1]),
            (whole[:-1], other),
            (whole, b"HWLG\1"),
        ):
            left.write_bytes(pair[0])
            right.write_bytes(pair[1])
            self.assertEqual(self.dropped("audit", left, right), [self.said("audit", left, right)])

    def test_each_pair_is_audited_as_the_program_does(self):
        for left in LOGS:
            for right in LOGS:
                if left == right:
                    continue
                self.assertEqual(self.dropped("audit", left, right), [self.said("audit", left, right)], right.name)

    def test_a_log_that_is_none_is_answered_as_the_program_does(self):
        whole, torn = (DATA / "both.hwlg").read_bytes(), self.write("torn.hwlg", b"")
        cut = [whole[:size] for size in (4, 5, 8, 9, 40, 73, 74, 75, 100, len(whole) - 1)]
        flipped = [whole[:at] + bytes([whole[at] ^ 0xFF]) + whole[at + 1 :] for at in range(4, 140)]
        for data in cut + flipped:
            torn.write_bytes(data)
            self.assertEqual(self.dropped("replay", torn), [self.said("replay", torn)], data.hex())

    def test_certificates_are_checked_as_the_program_does(self):
        made = Path(self.room.name, "made.hwct")
        block = self.said("replay", DATA / "signed.hwlg").split("final 0 ")[1][:64]
        self.said("certify", DATA / "signed.hwlg", block, made)
        self.addCleanup(made.unlink)
        for certificate, keys in ((made, "three.keys"), (DATA / "four.hwct", "three.keys"), (made, "keys")):
            told = self.dropped("check", certificate, DATA / keys)
            self.assertEqual(told, [self.said("check", certificate, DATA / keys)], (certificate, keys))
        self.assertIn("of total weight 3", self.shown())
        self.assertIn("Is this your network?", self.shown())
        whole, broken = made.read_bytes(), self.write("broken.hwct", b"")
        for data in [whole[:size] for size in (5, 9, 40, 100, len(whole) - 1)] + [whole + b"x", b"HWCT\2" + whole[5:]]:
            broken.write_bytes(data)
            told = self.dropped("check", broken, DATA / "three.keys")
            self.assertEqual(told, [self.said("check", broken, DATA / "three.keys")], len(data))

    # ---- against the stored answers

    def test_stored_logs_are_reported_as_the_reference_does(self):
        path = self.write("stored.hwlg", b"")
        for data, text in stored("logs.bin", "answers.txt", 1):
            path.write_bytes(data)
            self.assertEqual(self.dropped("replay", path), [text[text.index("units ") :]])

    def test_limits_are_reported_as_the_reference_does(self):
        path = self.write("limits.hwlg", b"")
        for data, text in stored("limits.bin", "limits.txt", 1):
            path.write_bytes(data)
            self.assertEqual(self.dropped("replay", path), [text[text.index("limit ") :]])

    # ---- what a person sees

    def test_a_conflict_is_told_and_its_evidence_kept(self):
        self.browser.ask("Browser.setDownloadBehavior", behavior="allow", downloadPath=self.room.name)
        self.dropped("audit", DATA / "signed.hwlg", DATA / "signed-other.hwlg", DATA / "three.keys")
        shown = self.shown()
        self.assertIn("The two logs decided different blocks at height 0. To blame: validator 1.", shown)
        self.assertIn("4 of 4 entries with good signatures", shown)
        self.assertNotIn("Accuse nobody", shown)
        self.browser.wait("document.body.dataset.pictures === '2'")
        self.browser.value("document.querySelector('a.save').click()")
        kept = Path(self.room.name, "evidence.hwlg")
        self.browser.wait("new Promise((done) => setTimeout(() => done(true), 300))")
        log = read_log(kept)
        self.assertEqual([entry.name for entry in log.entries], ["evidence"])
        digests = re.findall(r"culprit 1 (\w+) (\w+)", self.browser.printed("audit")[0])[0]
        pair = log.entries[0].vertex
        self.assertEqual({pair.left.unit.digest.hex(), pair.right.unit.digest.hex()}, set(digests))
        keys = read_keys(DATA / "three.keys")
        self.assertTrue(is_signed(pair, keys))
        self.assertIn("\nfaulty 1\n", self.said("replay", kept))
        # The lens writes the same file.
        out = Path(self.room.name, "pairs.hwlg")
        words = ["evidence", DATA / "signed.hwlg", DATA / "signed-other.hwlg", "--out", out, "--program", program()]
        with contextlib.redirect_stdout(io.StringIO()):
            self.assertEqual(main([str(word) for word in words]), 0)
        self.assertEqual(out.read_bytes(), kept.read_bytes())

    def test_false_verdicts_are_listed(self):
        self.dropped("replay", DATA / "four.hwlg", DATA / "three.keys")
        self.assertIn("4 of 4 verdicts aren't what the keys of a test network say", self.shown())
        self.assertIn("the entry at byte 74: verdict 1, and the keys say 0", self.shown())
        self.dropped("replay", DATA / "four.hwlg")
        self.assertIn("The signatures weren't checked", self.shown())

    @unittest.skipUnless(shutil.which("openssl"), "there is no openssl here")
    def test_public_keys_judge_with_a_side_file(self):
        log, side, keys = with_public_keys(read_log(DATA / "four.hwlg"), self.room.name)
        files = [self.write("real.hwlg", log), self.write("real.hwsg", side), self.write("public.keys", keys)]
        self.dropped("replay", *files)
        told = "Each verdict is what public keys, and the signatures of the side file say: 4 of 4 entries with good"
        self.assertIn(told, self.shown())
        self.write("public.keys", keys[65:] + keys[:65])
        self.dropped("replay", *files)
        self.assertIn("4 of 4 verdicts aren't what public keys", self.shown())
        self.write("real.hwsg", side[:-1])
        self.dropped("replay", *files)
        self.assertIn(f"torn at {len(side) - 66}: no signature was checked", self.shown())

    def test_markup_stays_text(self):
        log = read_log(DATA / "four.hwlg")
        block = next(it.vertex for it in log.entries if it.vertex.unit.is_block)
        marked = SignedUnit(with_digest(replace(block.unit, value=MARKUP)), block.signature)
        name = "<img src=x onerror=alert(1)>.hwlg"
        self.dropped("replay", self.write(name, spelled_log(log.config, [(1, marked)])), self.write("<b>", b"none"))
        self.browser.wait("document.querySelector('[data-unit]') !== null")
        self.browser.value("document.querySelector('[data-unit]').dispatchEvent(new Event('click', {bubbles: true}))")
        self.browser.wait("document.querySelector('.picked h3') !== null")
        shown = self.shown()
        for text in (name, MARKUP.decode(), "<b> is no log"):
            self.assertIn(text, shown)
        self.assertEqual(self.browser.value("document.querySelectorAll('img, #said b, #said script').length"), 0)
        self.assertEqual(self.browser.value("document.title"), "Highway: audit in a browser")

    def test_the_page_reaches_no_network(self):
        reached = "fetch(%s).then(() => 'reached', (error) => error.name)"
        self.assertEqual(self.browser.value(reached % "'data:text/plain,x'"), "TypeError")
        self.browser.value("document.body.append(Object.assign(new Image(), {src: 'data:image/gif;base64,x'}))")
        self.browser.value("document.body.lastChild.setAttribute('onclick', 'document.title = 1')")
        self.browser.value("document.body.lastChild.click()")
        self.assertEqual(self.browser.value("document.title"), "Highway: audit in a browser")
        self.browser.value("document.body.lastChild.remove()")

    def test_a_log_of_100_mb_goes_by_pieces_and_is_stopped(self):
        data = (DATA / "both.hwlg").read_bytes()
        log = read_log(DATA / "both.hwlg")
        times = -(-LONG // (len(data) - log.entries[0].offset))
        long = self.write("long.hwlg", data + data[log.entries[0].offset :] * times)
        self.addCleanup(long.unlink)
        [text] = self.dropped("replay", long)
        self.assertEqual(text, self.said("replay", long))
        self.assertIn(f"repeats {len(log.entries) * times}", text)
        self.browser.value("document.body.dataset.state = 'asked'")
        root = self.browser.ask("DOM.getDocument")["root"]["nodeId"]
        node = self.browser.ask("DOM.querySelector", nodeId=root, selector="#files")["nodeId"]
        self.browser.ask("DOM.setFileInputFiles", files=[str(long)], nodeId=node)
        self.browser.value("document.getElementById('stop').click()")
        self.assertEqual(self.state(), "stopped")
        self.assertEqual(len(self.dropped("replay", DATA / "both.hwlg")), 1)


if __name__ == "__main__":
    unittest.main()
