"""The view of logs in Chromium: on the page of the core, and on that of `lens.py page`, which draws with the same scripts
what another reading says."""

import contextlib
import io
import re
from pathlib import Path

from lens.main import main
from lens.log import read_log
from measure import worst_logs
from page.tests.given import program
from page.tests.on_page import DATA, LOGS, OnPage, stored

# What is drawn of each unit.
DRAWN = """[...document.querySelectorAll('.graph [data-unit]')].map((it) => [
  it.dataset.unit, it.getAttribute('class'), it.querySelector('.label')?.textContent, it.querySelector('.body').getAttribute('x'),
  it.querySelector('.body').getAttribute('y'), it.querySelectorAll('.ring, .frame').length, it.querySelector('.body').getAttribute('class'),
  [...it.querySelectorAll('.tag')].map((tag) => tag.textContent)])"""
LINES = "[...document.querySelectorAll('.graph > path, .map path, .heat path')].map((it) => it.getAttribute('d'))"
PICKED = "document.querySelector('.picked').innerText"


class View(OnPage):
    def picture(self, *logs):
        """Drops logs on the page, and waits for their pictures."""
        self.dropped("replay", *logs)
        self.browser.wait(f"document.body.dataset.pictures === '{len(logs)}'")

    def press(self, *keys):
        for key in keys:
            self.browser.value(
                f"document.body.dispatchEvent(new KeyboardEvent('keydown', {{key: '{key}', bubbles: true}}))"
            )

    def find(self, text):
        field = "document.querySelector('input.search')"
        self.browser.value(f"{field}.value = '{text}'; {field}.dispatchEvent(new Event('change'))")

    # ---- both pages

    def lens_page(self, *logs):
        out = Path(self.room.name, "lens.html")
        with contextlib.redirect_stdout(io.StringIO()) as said:
            self.assertEqual(main(["page", "--program", program(), *map(str, logs), str(out), "--force"]), 0, said)
        self.browser.open(out)
        self.addCleanup(self.browser.open, self.file)
        self.browser.wait("document.body.dataset.state === 'done'")

    def test_the_page_of_the_lens_draws_the_same(self):
        if not program():
            self.skipTest("there is no program of these sources here: HIGHWAY names one")
        random = [
            self.write(f"{place}.hwlg", data) for place, (data, _) in enumerate(stored("logs.bin", "answers.txt", 12))
        ]
        for logs in [*([it] for it in LOGS + random), [DATA / "signed.hwlg", DATA / "signed-other.hwlg"]]:
            self.browser.open(self.file)
            self.picture(*logs)
            drawn, lines = self.browser.value(DRAWN), self.browser.value(LINES)
            self.assertTrue(drawn)
            self.lens_page(*logs)
            # What the core says, and what the lens reads, makes the same picture.
            self.assertEqual(sorted(self.browser.value(DRAWN)), sorted(drawn), logs)
            self.assertEqual(sorted(self.browser.value(LINES)), sorted(lines), logs)

    def test_the_page_of_the_lens_links_what_its_head_names(self):
        if not program():
            self.skipTest("there is no program of these sources here: HIGHWAY names one")
        self.lens_page(DATA / "signed.hwlg", DATA / "signed-other.hwlg")
        digest = self.browser.value("document.querySelector('header a.unit').dataset.digest")
        self.browser.value("document.querySelector('header a.unit').click()")
        self.browser.wait(f"{PICKED}.includes('{digest}')")

    # ---- a person's hands

    def test_a_unit_is_found(self):
        path = self.write("found.hwlg", stored("logs.bin", "answers.txt", 1)[0][0])
        self.picture(path)
        block = re.search(r"final 1 (\w+)", self.browser.printed("replay")[0])[1]
        for asked in (block, block[:6], "height 1"):
            self.press("Escape")
            self.assertEqual(self.browser.value(PICKED), "")
            self.find(asked)
            self.browser.wait(f"{PICKED}.includes('{block}')")
        self.find("0#0")
        self.browser.wait(f"{PICKED}.includes('validator 0, number 0')")
        self.find("validator 2")
        self.browser.wait(f"{PICKED}.includes('validator 2, number')")
        self.find("9#9")
        self.browser.wait("document.body.innerText.includes('there is no unit 9#9')")

    def test_a_link_leads_to_a_unit(self):
        self.picture(DATA / "both.hwlg")
        digest = self.browser.value("document.querySelector('[data-unit]').dataset.unit")
        self.find(digest)
        self.browser.wait(f"location.hash === '#unit={digest}'")
        self.press("Escape")
        self.browser.wait("location.hash === ''")
        self.browser.value(f"location.hash = '#unit={digest}'")
        self.browser.wait(f"{PICKED}.includes('{digest}')")
        # A link from a disk opens its unit as soon as the log is there.
        self.picture(DATA / "four.hwlg", DATA / "both.hwlg")
        self.browser.wait(f"[...document.querySelectorAll('.picked')].some((it) => it.innerText.includes('{digest}'))")
        self.press("Escape")

    def test_keys(self):
        self.picture(DATA / "four.hwlg")
        self.press("?")
        self.assertIn("Keys", self.shown())
        self.press("?", "t")
        self.assertIn("Time is to scale: a second has", self.shown())
        self.press("t", "c")
        self.assertIn("Time isn't to scale", self.shown())
        self.assertEqual(self.browser.value("document.querySelectorAll('.graph path.cite').length"), 0)
        self.press("c")
        self.assertEqual(self.browser.value("document.querySelectorAll('.graph path.cite').length"), 1)
        self.find("0#0")
        self.browser.wait(f"{PICKED}.includes('number 0')")
        self.press("]")
        self.browser.wait(f"{PICKED}.includes('number 1')")
        self.press("[")
        self.browser.wait(f"{PICKED}.includes('number 0')")
        wide = "document.querySelector('svg.graph').getBoundingClientRect().width"
        before = self.browser.value(wide)
        self.press("+")
        self.assertGreater(self.browser.value(wide), before)
        self.press("/")
        self.assertEqual(self.browser.value("document.activeElement.className"), "search")

    def test_entry_by_entry(self):
        self.picture(DATA / "both.hwlg")
        self.press("w")
        self.browser.wait("document.querySelector('.walk') !== null")
        count = len(read_log(DATA / "both.hwlg").entries)
        self.assertIn(f"Entry {count} of {count}", self.shown())
        self.press(*[","] * count)
        self.assertIn("Nothing was delivered yet", self.shown())
        self.assertEqual(self.browser.value("document.querySelectorAll('.lane:not(.ahead)').length"), 0)
        self.assertEqual(self.browser.value("document.querySelector('.graph > .cite').getAttribute('d')"), "")
        self.press(".", "n")
        self.browser.wait("document.querySelector('.said').innerText.includes('became final')")
        self.assertTrue(self.browser.value("document.querySelectorAll('.u.ahead').length > 0"))
        self.press("n")
        self.browser.wait("document.querySelector('.said').innerText.includes('is faulty from here on')")
        self.press("w")
        self.browser.wait("document.querySelector('.walk') === null")

    def test_a_long_log_is_opened_by_stretches(self):
        path = Path(self.room.name, "long.hwlg")
        with contextlib.redirect_stdout(io.StringIO()):
            worst_logs.main(["rounds", str(path), "--validators", "30", "--rounds", "40"])
        self.picture(path)
        place = "document.querySelector('.controls .quiet').textContent"
        self.assertEqual(self.browser.value(place), "units 1 to 240 of 2400 by time")
        self.press("ArrowRight")
        self.browser.wait(f"{place}.startsWith('units 121 to 360 ')")
        # A click on the last round of the heat map, and one on the middle of the strip.
        click = "dispatchEvent(new MouseEvent('click', {bubbles: true, clientX: box.left + box.width * %s}))"
        for picture, part, first in (("heat", 0.97, "units 2161 to"), ("strip", 0.55, "units 11")):
            find = f"((it) => {{ const box = it.getBoundingClientRect(); it.{click % part}; }})"
            self.browser.value(f"{find}(document.querySelector('svg.{picture}'))")
            self.browser.wait(f"{place}.startsWith('{first}')")
        self.assertEqual(self.browser.value("document.querySelectorAll('.heat .h2').length"), 1)

    def test_faulty_validators_stand_in_the_head(self):
        self.picture(DATA / "both.hwlg")
        self.assertIn("Faulty: validator 1 (weight 1)", self.shown())
        self.assertEqual(
            self.browser.value("document.querySelector('.panel > p.alarm').textContent.slice(0, 6)"), "Faulty"
        )
