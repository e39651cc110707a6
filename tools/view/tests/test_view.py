"""Tests of the view's scripts: those by node, and that they make one script each."""

import os
import re
import shutil
import subprocess
import unittest

from view.parts import FACTS, HERE, VIEW, filled, policy, script_of


class Text(unittest.TestCase):
    def test_a_script_has_no_imports_and_no_exports(self):
        self.assertFalse(re.search(r"^(?:import|export)\b", script_of(*VIEW), re.M))
        self.assertIn(FACTS, VIEW)

    def test_the_policy_names_the_script_and_the_style(self):
        said = policy("style", "script")
        self.assertTrue(said.startswith("default-src 'none'; script-src 'sha256-"))
        self.assertNotIn("unsafe-inline", said)

    def test_a_script_that_ends_its_element_is_refused(self):
        self.assertEqual(filled("<@NAME@>", {"NAME": "@NAME@"}), "<@NAME@>")
        for text in ("'</script>'", "'<!--'"):
            with self.assertRaises(ValueError):
                filled("@SCRIPT@", {"SCRIPT": text})

    def test_each_script_is_of_the_view(self):
        there = {os.path.join(HERE, name) for name in os.listdir(HERE) if name.endswith(".js")}
        self.assertEqual(there, set(VIEW))


@unittest.skipUnless(shutil.which("node"), "there is no node here")
class ByNode(unittest.TestCase):
    def test_the_facts(self):
        how = {"stdin": subprocess.DEVNULL, "capture_output": True, "text": True, "check": False}
        ran = subprocess.run(["node", "--test", f"{HERE}/tests/facts.test.js"], **how)
        self.assertEqual(ran.returncode, 0, ran.stdout[-4000:] + ran.stderr[-2000:])
        self.assertIn("# skipped 0", ran.stdout)


if __name__ == "__main__":
    unittest.main()
