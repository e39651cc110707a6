"""Tests of the module's making, and by node those of bindings/js."""

import json
import os
import re
import shutil
import subprocess
import tempfile
import unittest

from bindings.unproved_archive import visible
from look.kit import toolchain
from look.sources import ROOT
from page.module import HEAP, OF_HEAP, for_browsers, heap_alone
from page.tests.given import NO_MODULE, module

NODE = ["node", "--experimental-wasm-memory64", "--test"]
TEXT = [
    'target datalayout = "e-m:e-p270:32:32"\n',
    'target triple = "x86_64-unknown-linux-gnu"\n',
    'define internal noundef i32 @"hw_c::hw_check"(ptr %a0) #0 {\n',
    'attributes #0 = { nounwind sanitize_address "target-cpu"="x86-64" "target-features"="+sse2" }\n',
    'attributes #1 = { "target-cpu"="x86-64" }\n',
]


class Making(unittest.TestCase):
    def test_another_target(self):
        lines = list(for_browsers(visible(TEXT, "hw_c", ["hw_check"])))
        self.assertIn("p10:8:8", lines[0])
        self.assertEqual(lines[1], 'target triple = "wasm64-unknown-unknown"\n')
        self.assertEqual(lines[2], "define noundef i32 @hw_check(ptr %a0) #0 {\n")
        self.assertEqual(lines[3], "attributes #0 = { nounwind }\n")
        self.assertEqual(lines[4], "attributes #1 = { nounwind }\n")

    def test_the_binding_calls_each_export(self):
        with open(f"{ROOT}/bindings/c/highway.h", encoding="utf-8") as it:
            declared = set(re.findall(r"^uint32_t (hw_\w+)\(", it.read(), re.M))
        with open(f"{ROOT}/bindings/js/highway.js", encoding="utf-8") as it:
            text = it.read()
        self.assertEqual(declared - set(re.findall(r"hw_\w+", text)), set())

    def test_the_package_has_the_version(self):
        with open(f"{ROOT}/VERSION", encoding="utf-8") as it:
            version = it.read().strip()
        with open(f"{ROOT}/bindings/js/package.json", encoding="utf-8") as it:
            self.assertEqual(json.load(it)["version"], version)

    def test_the_heap_exports_what_is_named(self):
        with open(HEAP, encoding="utf-8") as it:
            text = it.read()
        for name in OF_HEAP:
            self.assertIn(f" {name}(" if f" {name}(" in text else f"*{name}(", text)


@unittest.skipUnless(shutil.which("node"), "there is no node here")
class ByNode(unittest.TestCase):
    def run_tests(self, *files, **places):
        words = [*NODE, *(f"{ROOT}/bindings/js/tests/{it}" for it in files)]
        how = {"stdin": subprocess.DEVNULL, "capture_output": True, "text": True, "check": False}
        ran = subprocess.run(words, env={**os.environ, **places}, **how)
        self.assertEqual(ran.returncode, 0, ran.stdout[-4000:] + ran.stderr[-2000:])
        self.assertIn("# skipped 0", ran.stdout)

    def test_the_heap(self):
        if toolchain() is None:
            self.skipTest("there is no toolchain here")
        with tempfile.TemporaryDirectory() as work:
            self.run_tests("heap.test.js", HIGHWAY_HEAP=heap_alone(work))

    def test_the_binding(self):
        found = module()
        if not found:
            self.skipTest(NO_MODULE)
        self.run_tests("logs.test.js", "node.test.js", HIGHWAY_WASM=found)


if __name__ == "__main__":
    unittest.main()
