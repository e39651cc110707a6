"""The page in Chromium without a window, with what its tests ask of it."""

import re
import subprocess
import tempfile
import unittest
from pathlib import Path

from look.sources import ROOT
from page.main import page
from page.tests.browser import Browser, found
from page.tests.given import NO_MODULE, module, program

DATA = Path(ROOT, "crates/highway/data")
STORED = Path(ROOT, "bindings/rust/tests/data")
LOGS = sorted(DATA.glob("*.hwlg"))
# The logs of the cases that the program is run on, among them the vectors of independent implementations.
CASES = sorted(Path(ROOT, "crates/highway_cases/data").glob("*.hwlg"))


def stored(logs, answers, each):
    """Every so manieth of the stored logs, and the text of its answers."""
    data, at, files = (STORED / logs).read_bytes(), 0, []
    texts = re.split(r"^case .*\n", (STORED / answers).read_text(), flags=re.M)[1:]
    while at < len(data):
        length = int.from_bytes(data[at : at + 4])
        files.append(data[at + 4 : at + 4 + length])
        at += 4 + length
    if len(files) != len(texts):
        raise ValueError(f"{len(files)} logs have {len(texts)} answers")
    return list(zip(files, texts))[::each]


@unittest.skipUnless(found(), "there is no Chromium here")
class OnPage(unittest.TestCase):
    """A browser with the page open, for all tests of a class."""

    @classmethod
    def setUpClass(cls):
        if not module():
            raise unittest.SkipTest(NO_MODULE)
        cls.room = tempfile.TemporaryDirectory(prefix="page-")
        cls.addClassCleanup(cls.room.cleanup)
        cls.file = Path(cls.room.name, "highway.html")
        cls.file.write_text(page(Path(module()).read_bytes(), "0" * 64, False), encoding="utf-8")
        cls.browser = Browser()
        cls.addClassCleanup(cls.browser.close)
        cls.browser.open(cls.file)

    def write(self, name, data):
        path = Path(self.room.name, name)
        path.write_bytes(data)
        return path

    def dropped(self, of, *paths):
        self.browser.drop(*paths)
        self.assertEqual(self.state(), "done", self.shown())
        return self.browser.printed(of)

    def state(self):
        return self.browser.value("document.body.dataset.state")

    def shown(self):
        return self.browser.value("document.body.innerText")

    def said(self, *words):
        if not program():
            self.skipTest("there is no program of these sources here: HIGHWAY names one")
        ran = subprocess.run([program(), *map(str, words)], capture_output=True, text=True, check=False)
        # The page knows a file by its name, and the program by its path.
        return re.sub(r"^input \S*/", "input ", ran.stdout)
