"""Tests of the comparison of the declarations with the crate: each text with one thing changed is told of."""

import unittest

from bindings import declarations as numbers

CRATE, RULES, HEADER, WRAPPER, WRAPPER_RULES, SCRIPT = numbers.texts()


class Compared(unittest.TestCase):
    def found(self, **changed):
        given = {"crate": CRATE, "rules": RULES, "header": HEADER, "wrapper": WRAPPER, "wrapper_rules": WRAPPER_RULES}
        return numbers.compared(**{**given, "script": SCRIPT, **changed})[0]

    def swapped(self, text, old, new):
        self.assertEqual(text.count(old), 1, old)
        return text.replace(old, new)

    def test_as_they_are_they_are_the_same(self):
        found, counts = numbers.compared(CRATE, RULES, HEADER, WRAPPER, WRAPPER_RULES, SCRIPT)
        self.assertEqual(found, [])
        self.assertEqual(counts, {"statuses": 19, "rules": 19, "structs": 16, "calls": 25})

    def test_a_status(self):
        (row,) = self.found(header=self.swapped(HEADER, "HW_CLASH = 0x320", "HW_CLASH = 0x323"))
        self.assertIn("highway.h: status CLASH: 803", row)
        (row,) = self.found(wrapper=self.swapped(WRAPPER, "const FULL: u32 = 5", "const FULL: u32 = 4"))
        self.assertIn("bindings/rust: status FULL: 4", row)

    def test_a_status_that_is_missing(self):
        (row,) = self.found(header=self.swapped(HEADER, "  HW_CLASH = 0x320,", "  "))
        self.assertIn("status CLASH: None", row)

    def test_a_status_with_the_number_of_the_headers_own(self):
        rows = self.found(crate=CRATE + "\npub const CALLED: u32 = 8;\n")
        self.assertIn("the crate: status CALLED has a number of the header's own", rows)

    def test_a_call_that_may_overlap_another(self):
        (row,) = self.found(header=self.swapped(HEADER, "#define hw_due hw_due_alone\n", ""))
        self.assertIn("hw_due is made while another call uses the handle", row)

    def test_a_rule(self):
        row, *_ = self.found(wrapper_rules=self.swapped(WRAPPER_RULES, "Naive = 18", "Naive = 17"))
        self.assertIn("bindings/rust: rule Naive: 17", row)
        (row,) = self.found(script=self.swapped(SCRIPT, ', "naive", "after the last block"', ', "naive"'))
        self.assertIn("bindings/js: rule 19: None", row)

    def test_two_fields_exchanged(self):
        (row,) = self.found(header=self.swapped(HEADER, "uint64_t height, quorum, at;", "uint64_t quorum, height, at;"))
        self.assertIn("struct Decided", row)

    def test_the_width_of_a_field(self):
        (row,) = self.found(wrapper=self.swapped(WRAPPER, "at: u64, level: u32", "at: u64, level: u64"))
        self.assertIn("struct Decided", row)

    def test_the_crate_changed(self):
        at, level = "    pub at: u64,\n", "    pub level: u32,\n"
        rows = self.found(crate=self.swapped(CRATE, at + level, level + at))
        self.assertEqual([it.split(":")[0] for it in rows], ["highway.h", "bindings/rust"])

    def test_two_parameters_exchanged(self):
        begin, old = "uint32_t hw_next_unit(hw_core *core, ", "uint32_t validator, uint64_t now, const"
        text = self.swapped(HEADER, begin + old, begin + "uint64_t now, uint32_t validator, const")
        self.assertIn("call hw_next_unit", self.found(header=text)[0])

    def test_a_pointer_that_may_be_written(self):
        text = self.swapped(WRAPPER, "pub fn hw_signed(vertex: *const u8", "pub fn hw_signed(vertex: *mut u8")
        self.assertIn("call hw_signed", self.found(wrapper=text)[0])

    def test_a_call_that_is_missing(self):
        (row,) = self.found(header=self.swapped(HEADER, "uint32_t hw_core_free(hw_core *core);\n", ""))
        self.assertIn("call hw_core_free: None", row)


class Parts(unittest.TestCase):
    def test_what_a_parameter_passes(self):
        self.assertEqual(numbers.of_rattle("alloc: Global"), [])
        self.assertEqual(numbers.of_rattle("buf: &mut [u8]"), ["u8*", "usize"])
        self.assertEqual(numbers.of_rattle("verdicts: &[bool]"), ["const bool*", "usize"])
        self.assertEqual(numbers.of_rattle("unit: &[u8; 32]"), ["const [u8; 32]*"])
        self.assertEqual(numbers.of_c("const uint8_t unit[32]"), "const [u8; 32]*")
        self.assertEqual(numbers.of_c("bool verdict"), "bool")
        self.assertEqual(numbers.of_rust("core: *mut RawHandle"), "Handle*")


if __name__ == "__main__":
    unittest.main()
