"""Tests of the tool that tries wrong bodies: on small texts and made-up answers of checks. Nothing is proved here."""

import contextlib
import io
import os
import re
import shutil
import tempfile
import unittest
from unittest import mock

from gate import rattle_checks
from gate import rattle_sources
from gate import tried_record
from gate import wrong_bodies
from gate.rattle_pages import applied, is_named, page_of, pages_of, place_of
from gate.rattle_sources import crates_of, functions_of, interface_of, owner_of
from gate.stubbed_bodies import stubbed
from gate.wrong_body_trials import FAULTY, PROVED, REFUSED, UNTRIED, Trial

LOW = """//! The crate below.
#![tactic(auto)]

use std::alloc::Global;

/// Adds one.
#[tactic(auto, using(
    low::proofs::Laws::more,
))]
pub fn more(count: u64) -> u64
    requires { count < 9 }
    ensures { result ≡ count + 1 }
{
    helped(count)
}

fn helped(count: u64) -> u64
    requires { count < 9 }
{
    count + 1
}

pub trait Door {
    fn open(&mut self) -> bool
        ensures { self.new ≡ self.old };

    fn twice(&mut self) -> bool {
        self.open() && self.open()
    }
}

impl Door for Gate {
    fn open(&mut self) -> bool
        ensures { self.new ≡ self.old }
    {
        true
    }
}
"""

TOP = """use low::more;

/// How far it goes.
const FAR: u64 = 7;

pub struct Steps {
    count: u64,
}

impl Steps {
    /// One step on.
    pub fn on(&mut self)
        ensures { self.new ≡ self.old + 1 }
    {
        self.count = more(self.count);
    }

    pub fn far(&self) -> bool {
        self.count >= FAR
    }
}

#[cycle(parity)]
fn even(n: u64) -> bool {
    n == 0 || odd(n - 1)
}

#[cycle(parity)]
fn odd(n: u64) -> bool {
    n != 0 && even(n - 1)
}
"""


def page_text(mistake, old, new):
    return f"# {mistake}\nfile: src/lib.rt\nold: {old}\nnew: {new}\n"


STEP = "        self.count = more(self.count)"
PAGES = {
    "no_step.md": page_text("A step stays where it is.", f"{STEP};", f"{STEP} - 1;"),
    "far_one_later.edit": page_text("It is far only one step later.", "self.count >= FAR", "self.count > FAR"),
    "farther.md": page_text("The limit is one more.", "const FAR: u64 = 7;", "const FAR: u64 = 8;"),
    "step_by_two.md": page_text("Each step counts twice.", "more(self.count)", "more(more(self.count))"),
}


def answer(*refused, status=1, resting=(), lines=(), only=0):
    """Returns a check's answer that refuses these functions, as its printed lines would give it; where it was asked for
    some functions only, of so many."""
    rows = [*lines]
    for name in refused:
        place = name.partition("::")[2].replace("::", "/")
        rows += [f"./proofs/{place}/Answers.antt:1:1: error: `returns`: the two sides differ", f"fn {name}: not proved"]
    rows += [f"fn {name}: no proof: it calls `top::other`, which is not proved" for name in resting]
    if only:
        rows.append(f"only={only} proved={only - len(refused) if status else only}")
    else:
        rows += ["logic=proved functions=4"] if not status else ["logic=not-proved"] if status == 1 else []
    return rattle_checks.answer_of(status, rows, ["src/lib.rt"])


class InRepository(unittest.TestCase):
    """A repository of two crates in a folder of its own."""

    def setUp(self):
        self.root = tempfile.mkdtemp(prefix="wrong-bodies-test-")
        self.addCleanup(shutil.rmtree, self.root)
        self.put("crates.txt", "# a crate below, and one on top\nlow: sha2\ntop: low\n")
        self.put("crates/low/src/lib.rt", LOW)
        self.put("crates/low/specs/Words.antt", "-- words\npub word : ℕ\nword = 1\n")
        self.put("crates/low/proofs/Laws.antt", "pub law : word ≡ 1\nlaw = refl\n")
        self.put("crates/low/proofs/more/Answers.antt", "pub returns : goal.returns\nreturns c = refl\n")
        self.put("crates/top/src/lib.rt", TOP)
        for name, text in PAGES.items():
            self.put(f"crates/top/must-fail/{name}", text)
        self.read()

    def read(self):
        self.crates = crates_of(self.root)
        self.top, self.low = self.crates["top"], self.crates["low"]

    def put(self, path, text):
        os.makedirs(os.path.dirname(f"{self.root}/{path}") or self.root, exist_ok=True)
        with open(f"{self.root}/{path}", "w", encoding="utf-8") as it:
            it.write(text)

    def change(self, path, old, new):
        text = rattle_sources.text_of(f"{self.root}/{path}")
        self.assertEqual(text.count(old), 1)
        self.put(path, text.replace(old, new))

    def page(self, name):
        return next(it for it in pages_of(self.top)[0] if it.name == name)

    def tried(self, check, *names):
        """Returns the cases of a trial of these pages, by name. What each check is asked for stands in `self.asked`."""
        self.asked, self.texts = [], []

        def asked(texts, only, gone):
            self.asked.append([*only, "alone"] if gone else only)
            self.texts.append(texts)
            return check(texts)

        trial = Trial(self.top, asked, lambda _: None)
        for name in names:
            trial.add(self.page(name))
        trial.run()
        return {it.page.name: it for it in trial.cases}

    def current(self, *words):
        """Returns the status of `--current`, and what it printed."""
        out = io.StringIO()
        with contextlib.redirect_stdout(out):
            status = wrong_bodies.main(["--current", "--root", self.root, *words])
        return status, out.getvalue()

    def record_all(self):
        base = tried_record.base_of(self.top, {})
        verdicts = {it.name: (tried_record.checksum(it, base), "`top::Steps::on`") for it in pages_of(self.top)[0]}
        tried_record.write(self.top, "kit 1", base, verdicts)


class Sources(InRepository):
    def test_functions_are_found_with_their_lines(self):
        found = {it.name: it for it in functions_of(TOP)}
        self.assertEqual(list(found), ["Steps::on", "Steps::far", "even", "odd"])
        self.assertIn("more(self.count)", TOP.split("\n")[found["Steps::on"].body])
        self.assertEqual(found["odd"].cycle, "parity")

    def test_a_body_without_lines_takes_no_line_of_the_next_function(self):
        text = "fn hidden()\n    ensures { fact }\n{}\n\npub fn told(bytes: &[u8; 32])\n    ensures { fact }\n{\n    body()\n}\n"
        self.assertEqual([it.name for it in functions_of(text)], ["told"])
        self.assertIn("pub fn told(bytes: &[u8; 32])", interface_of(text))

    def test_functions_of_traits_are_named_by_type_and_trait(self):
        self.assertEqual([it.name for it in functions_of(LOW)], ["more", "helped", "Door::twice", "GateDoor::open"])
        self.assertEqual(owner_of("impl<T: Drop> From<AllocFailed<T>> for OutOfMemory {"), "OutOfMemoryFromAllocFailed")
        self.assertEqual(owner_of("impl<'a> Model for Reader<'a> {"), "ReaderModel")
        self.assertEqual(owner_of("impl<T> Shared<T> {"), "Shared")

    def test_an_interface_has_contracts_and_no_bodies(self):
        text = interface_of(LOW)
        self.assertIn("requires { count < 9 }\n    ensures { result ≡ count + 1 }", text)
        self.assertNotIn("helped", text)
        self.assertNotIn("using", text)
        self.assertNotIn("Adds one", text)
        self.assertIn("self.open() && self.open()", text)
        self.assertEqual(text.count("ensures { self.new ≡ self.old }"), 2)

    def test_an_impl_head_over_two_lines_hides_nothing(self):
        rows = ["impl<A>", "    Door for Gate", "{", "    fn open(&mut self)", "        ensures { fact }", "    {"]
        text = "\n".join([*rows, "        body();", "    }", "}", ""])
        self.assertIn("ensures { fact }", interface_of(text))
        self.assertNotIn("body", interface_of(text))

    def test_a_body_below_changes_no_sum(self):
        before = rattle_sources.below_sum(self.top, {})
        self.change("crates/low/src/lib.rt", "    helped(count)", "    1 + count")
        self.change("crates/low/src/lib.rt", "/// Adds one.", "/// Adds 1.")
        self.put("crates/low/proofs/more/Answers.antt", "pub returns : goal.returns\nreturns c = other\n")
        self.assertEqual(rattle_sources.below_sum(self.top, {}), before)

    def test_what_can_be_read_below_changes_the_sum(self):
        changes = [
            ("crates/low/src/lib.rt", "ensures { result ≡ count + 1 }", "ensures { result ≡ 1 + count }"),
            ("crates/low/src/lib.rt", "self.open() && self.open()", "self.open()"),
            ("crates/low/specs/Words.antt", "word = 1", "word = 2"),
            ("crates/low/proofs/Laws.antt", "≡ 1", "≡ 2"),
        ]
        for path, old, new in changes:
            before = rattle_sources.below_sum(self.top, {})
            self.change(path, old, new)
            self.read()
            self.assertNotEqual(rattle_sources.below_sum(self.top, {}), before, path)

    def test_a_library_counts_where_a_file_names_it(self):
        before = rattle_sources.below_sum(self.top, {})
        self.change("crates.txt", "low: sha2", "low: sha2 hex")
        self.read()
        self.assertEqual(rattle_sources.below_sum(self.top, {}), before)
        self.change("crates/low/specs/Words.antt", "-- words\n", "-- words\nuse Rattle.hex.specs.Digits\n")
        named = rattle_sources.below_sum(self.top, {})
        self.change("crates.txt", "low: sha2 hex", "low: sha2")
        self.read()
        self.assertNotEqual(rattle_sources.below_sum(self.top, {}), named)

    def test_below_a_program_the_code_counts(self):
        os.rename(f"{self.root}/crates/top/src/lib.rt", f"{self.root}/crates/top/src/main.rt")
        before = rattle_sources.below_sum(self.top, {})
        self.change("crates/low/src/lib.rt", "    helped(count)", "    1 + count")
        self.assertNotEqual(rattle_sources.below_sum(self.top, {}), before)

    def test_a_text_with_a_long_string_counts_whole(self):
        text = 'const SAID: &str = "one\n// two";\n'
        self.assertEqual(rattle_sources.heard("a.rt", text), text)
        self.assertEqual(rattle_sources.heard("a.rt", "// one\n\nlet c = '\"';\n"), "let c = '\"';")

    def test_crates_txt_is_refused_with_its_line(self):
        self.put("crates.txt", "low:\nlow:\n")
        with self.assertRaisesRegex(rattle_sources.SourceError, "crates.txt:2: low is listed a second time"):
            crates_of(self.root)
        self.put("crates.txt", "low: top\ntop: low\n")
        with self.assertRaisesRegex(rattle_sources.SourceError, "stands on itself"):
            crates_of(self.root)


class Pages(InRepository):
    def fault(self, text, name="a.md"):
        return page_of(name, text).fault

    def test_a_page_says_its_mistake_in_the_first_line(self):
        self.assertEqual(self.page("no_step.md").mistake, "A step stays where it is.")
        self.assertIn("first line", self.fault("file: src/lib.rt\nold: a\nnew: b\n"))
        self.assertIn("first line", self.fault("#\nfile: src/lib.rt\nold: a\nnew: b\n"))

    def test_a_page_of_another_form_is_refused(self):
        self.assertIn("changes nothing", self.fault("# It.\nfile: src/lib.rt\n"))
        self.assertIn("changes nothing", self.fault("# It.\nfile: src/lib.rt\nold: a\nnew: a\n"))
        self.assertIn("line 3: the old text above", self.fault("# It.\nold: a\nold: b\nfile: src/lib.rt\nnew: c\n"))
        self.assertIn("line 2: a new text", self.fault("# It.\nnew: c\n"))
        self.assertIn("no file of src/", self.fault("# It.\nfile: ../x.rt\nold: a\nnew: b\n"))
        self.assertIn("ends in .md", self.fault("# It.\nright: so\nfile: src/a.rt\nold: a\nnew: b\n", "a.edit"))

    def test_a_new_text_keeps_its_indent_and_may_be_empty(self):
        page = page_of("a.md", "# It.\nfile: src/a.rt\nold:     a\nnew:     b\nold: c\nnew:\n")
        self.assertEqual(page.changes, [("src/a.rt", "    a", "    b"), ("src/a.rt", "c", "")])

    def test_an_old_text_stands_exactly_once(self):
        self.put("crates/top/must-fail/twice.md", "# It.\nfile: src/lib.rt\nold: self.count\nnew: 0\n")
        self.put("crates/top/must-fail/never.md", "# It.\nfile: src/lib.rt\nold: no such\nnew: 0\n")
        self.assertRegex(applied(self.top.folder, [self.page("twice.md")])[2], "stands in src/lib.rt 3 times")
        self.assertRegex(applied(self.top.folder, [self.page("never.md")])[2], "stands in src/lib.rt 0 times")

    def test_where_a_page_stands(self):
        self.assertEqual(place_of(self.page("no_step.md"), self.top.folder).functions, {("src/lib.rt", "Steps::on")})
        self.assertTrue(place_of(self.page("farther.md"), self.top.folder).is_beyond_bodies)
        self.put("crates/top/must-fail/cycle.md", "# It.\nfile: src/lib.rt\nold: n == 0\nnew: n == 1\n")
        place = place_of(self.page("cycle.md"), self.top.folder)
        self.assertEqual(place.functions, {("src/lib.rt", "+parity")})
        self.assertTrue(is_named("top::odd", ("src/lib.rt", "+parity"), "top", self.top.folder))

    def test_a_later_change_may_rest_on_an_earlier_one(self):
        text = "# It.\nfile: src/lib.rt\nold: more(self.count)\nnew: less(self.count)\nold: less\nnew: least\n"
        self.put("crates/top/must-fail/on.md", text)
        page = self.page("on.md")
        self.assertIn("least(self.count)", applied(self.top.folder, [page])[0]["src/lib.rt"])
        self.assertEqual(place_of(page, self.top.folder).functions, {("src/lib.rt", "Steps::on")})

    def test_names_of_the_check(self):
        key = ("src/moves.rt", "far")
        self.assertTrue(is_named("top::moves::far", key, "top", self.top.folder))
        self.assertTrue(is_named("top::moves::far::{closure}", key, "top", self.top.folder))
        self.assertFalse(is_named("top::moves::farther", key, "top", self.top.folder))
        self.assertFalse(is_named("top::far", key, "top", self.top.folder))
        # a method is named by the module of its type, wherever its impl stands
        self.assertTrue(is_named("top::a::b::Steps::on", ("src/moves.rt", "Steps::on"), "top", self.top.folder))
        self.assertFalse(is_named("top::a::b::Steps::one", ("src/moves.rt", "Steps::on"), "top", self.top.folder))


class Answers(unittest.TestCase):
    def test_functions_are_told_apart(self):
        lines = [
            "fn a::f: proved",
            "./proofs/k/g/Answers.antt:5:3: error: `lost`: module `G` has no `lost` that can be named from here",
            "./proofs/k/g/Answers.antt:6:34: error: `returns`: as printed, the two types first differ",
            "note: a goal may be false",
            "note: src/lib.rt:81:5: it is not proved that what the function ensures holds (`returns-clause-added`)",
            "fn a::h: not proved",
            "help: `Goals` has no `other`",
            "fn a::k::g: not proved",
            "fn a::l: no proof: expected answers in ./proofs/l/Answers.antt; `search` did not prove `loop-b-preserved`",
            "fn a::i: no proof: it calls `a::k::g`, which is not proved",
            "fn a::j: could not tell",
            "logic=not-proved",
        ]
        found = rattle_checks.answer_of(1, lines)
        goals = {"a::k::g": "returns", "a::h": "returns-clause-added", "a::l": "loop-b-preserved"}
        self.assertEqual(found.refused, goals)
        self.assertEqual((found.resting, found.undecided), ({"a::i"}, {"a::j"}))
        self.assertTrue(found.is_verdict)

    def test_a_check_of_some_functions_has_a_verdict(self):
        found = rattle_checks.answer_of(1, ["fn a::f: not proved", "fn a::g: proved", "only=2 proved=1", ""])
        self.assertTrue(found.is_verdict)
        self.assertEqual((found.refused, found.proved), ({"a::f": ""}, {"a::g"}))
        self.assertTrue(rattle_checks.answer_of(0, ["only=2 proved=2"]).is_proved)

    def test_a_function_that_is_not_there_is_told(self):
        for said in ("`a` has no function `b::f`", "several functions are named `b::f`"):
            found = rattle_checks.answer_of(2, [f"rattle: error: {said}: help: write it"])
            self.assertEqual((found.unknown, found.is_verdict), ("b::f", False))

    def test_a_front_end_error_is_no_verdict(self):
        found = rattle_checks.answer_of(1, ["error[E1]: mismatched types", " --> src/lib.rt:4:9", ""])
        self.assertFalse(found.is_verdict)
        self.assertEqual(found.error_lines, {("src/lib.rt", 4)})
        self.assertIn("mismatched types", found.complaint)

    def test_a_killed_check_is_no_verdict(self):
        self.assertIn("killed by signal 9", rattle_checks.answer_of(-9, []).complaint)

    def test_an_unread_text_is_told(self):
        lines = ["specs/A.antt:3:1: error: `x`: `y` is not in scope", "logic=not-proved"]
        self.assertIn("not in scope", rattle_checks.answer_of(1, lines, ["specs/A.antt"]).unread)
        lines = ["./proofs/f/Answers.antt:3:1: error: `x`: `y` is not in scope", "logic=not-proved"]
        self.assertEqual(rattle_checks.answer_of(1, lines, ["specs/A.antt"]).unread, "")


class Trials(InRepository):
    def test_pages_of_different_functions_share_a_check(self):
        asked = []

        def check(texts):
            asked.append(texts["src/lib.rt"])
            return answer("top::Steps::on", "top::Steps::far")

        cases = self.tried(check, "no_step.md", "far_one_later.edit")
        self.assertEqual(len(asked), 1)
        self.assertIn("more(self.count) - 1;", asked[0])
        self.assertIn("self.count > FAR", asked[0])
        self.assertEqual([it.kind for it in cases.values()], [REFUSED, REFUSED])
        self.assertEqual(cases["no_step.md"].said, "`top::Steps::on`, goal `returns`")

    def test_a_shared_check_is_asked_for_the_functions_of_its_pages(self):
        self.put("crates/top/must-fail/cycle.md", "# It.\nfile: src/lib.rt\nold: n == 0\nnew: n == 1\n")
        said = answer("top::Steps::on", "top::Steps::far", "top::even", only=4)
        cases = self.tried(lambda texts: said, "no_step.md", "far_one_later.edit", "cycle.md")
        self.assertEqual(self.asked, [["Steps::far", "Steps::on", "even", "odd"]])
        self.assertEqual({it.kind for it in cases.values()}, {REFUSED})

    def test_a_page_is_proved_by_a_whole_check_alone(self):
        cases = self.tried(lambda texts: answer(status=0), "no_step.md", "far_one_later.edit")
        self.assertEqual(self.asked, [["Steps::far", "Steps::on"], [], []])
        self.assertEqual({it.kind for it in cases.values()}, {PROVED})

    def test_a_function_that_cannot_be_asked_for_is_tried_in_a_whole_check(self):
        lines = ["rattle: error: several functions are named `Steps::far`: help: write one of `top::a::Steps::far`"]

        def check(texts):
            if "Steps::far" in self.asked[-1]:
                return rattle_checks.answer_of(2, lines)
            return answer("top::Steps::far" if "> FAR" in texts["src/lib.rt"] else "top::Steps::on")

        cases = self.tried(check, "no_step.md", "far_one_later.edit")
        self.assertEqual(self.asked, [["Steps::far", "Steps::on"], ["Steps::on", "alone"], []])
        self.assertEqual({it.kind for it in cases.values()}, {REFUSED})

    def test_without_an_own_goal_the_functions_are_asked_with_what_they_call(self):
        bare = rattle_checks.answer_of(1, ["fn top::Steps::on: not proved; it calls `low::more`", "only=2 holes=1"])
        said = answer("top::Steps::on", only=2)
        cases = self.tried(lambda texts: bare if self.asked[-1][-1] == "alone" else said, "no_step.md")
        self.assertEqual(self.asked, [["Steps::on", "alone"], ["Steps::on"]])
        self.assertEqual(cases["no_step.md"].kind, REFUSED)

    def test_in_a_cheap_check_all_other_bodies_are_left_out(self):
        self.tried(lambda texts: answer("top::Steps::on"), "no_step.md")
        text = self.texts[0]["src/lib.rt"]
        self.assertIn("more(self.count) - 1;", text)
        self.assertNotIn("self.count >= FAR", text)
        self.assertEqual(text.count("unreachable!()"), 1)
        self.assertEqual(len(text.split("\n")), len(TOP.split("\n")))
        self.assertIn("Rattle.top.proofs.Steps.far.Goals", self.texts[0]["proofs/Steps/far/Answers.antt"])

    def test_bodies_that_may_tell_more_stay(self):
        texts, gone = stubbed(self.low, {}, set())
        self.assertEqual(gone, ["proofs/more", "proofs/helped"])
        self.assertIn("self.open() && self.open()", texts["src/lib.rt"])
        self.put("crates/low/proofs/Laws.antt", "use Rattle.low.proofs.helped.Goals as goal\n")
        self.assertEqual(stubbed(self.low, {}, {("src/lib.rt", "more")}), ({}, []))

    def test_an_own_function_that_is_undecided_is_tried_again_alone(self):
        def check(texts):
            if len(self.asked) == 1:
                return answer("top::Steps::on", lines=["fn top::Steps::far: could not tell"])
            return answer("top::Steps::far")

        cases = self.tried(check, "no_step.md", "far_one_later.edit")
        self.assertEqual(self.asked[1:], [["Steps::far", "alone"]])
        self.assertEqual(cases["far_one_later.edit"].kind, REFUSED)

    def test_of_a_constant_the_functions_that_name_it_are_asked_first(self):
        cases = self.tried(lambda texts: answer("top::Steps::far", only=1), "farther.md")
        self.assertEqual(self.asked, [["Steps::far", "alone"]])
        self.assertEqual(cases["farther.md"].said, "`top::Steps::far`, goal `returns`")

    def test_where_the_first_asked_refuse_nothing_the_whole_crate_is(self):
        def check(texts):
            return answer(status=0) if self.asked[-1] else answer("top::other")

        self.assertEqual(self.tried(check, "farther.md")["farther.md"].said, "`top::other`, goal `returns`")
        self.assertEqual(self.asked, [["Steps::far", "alone"], []])
        self.assertEqual(self.tried(lambda texts: answer(status=0), "farther.md")["farther.md"].kind, PROVED)

    def test_of_a_definition_the_laws_that_rest_on_it_are_asked_first(self):
        laws = "\npub fn far_is_kept()\n    ensures { StaysFar }\n{}\n\npub fn other()\n    ensures { Other }\n{}\n"
        self.put("crates/top/src/laws.rt", laws)
        specs = "abbrev pub is_far : ℕ → Bool\nis_far n = nat_lt 7 n\n"
        specs += "\n-- is_far\npub record StaysFar : Type 0 where\n  pub kept : IsTrue (is_far 9)\n"
        specs += "\npub Other : Type 0\n"
        self.put("crates/top/specs/Far.antt", specs)
        self.put("crates/top/must-fail/seven.md", "# It.\nfile: specs/Far.antt\nold: nat_lt 7\nnew: nat_lt 8\n")
        self.tried(lambda texts: answer("top::laws::far_is_kept", only=1), "seven.md")
        self.assertEqual(self.asked, [["laws::far_is_kept", "alone"]])
        # where none of them is refused, those that rest on it further are, and then the whole crate
        self.put("crates/top/specs/Further.antt", "pub Other : Type 0\nOther = StaysFar\n")
        self.tried(lambda texts: answer(status=0), "seven.md")
        self.assertEqual(self.asked, [["laws::far_is_kept", "alone"], ["laws::other", "alone"], []])

    def test_pages_that_meet_in_a_function_do_not(self):
        asked = []

        def check(texts):
            asked.append(texts)
            return answer("top::Steps::on")

        cases = self.tried(check, "no_step.md", "step_by_two.md")
        self.assertEqual((len(asked), {it.kind for it in cases.values()}), (2, {REFUSED}))

    def test_a_page_that_changes_more_than_bodies_goes_alone(self):
        asked = []

        def check(texts):
            asked.append(texts["src/lib.rt"])
            return answer("top::Steps::far")

        cases = self.tried(check, "farther.md", "far_one_later.edit")
        self.assertEqual((len(asked), {it.kind for it in cases.values()}), (2, {REFUSED}))
        self.assertFalse(any("u64 = 8" in it and "> FAR" in it for it in asked))

    def test_a_refusal_of_another_function_proves_nothing(self):
        asked = []

        def check(texts):
            asked.append(texts["src/lib.rt"])
            if "> FAR" in asked[-1] and "count) - 1;" not in asked[-1]:
                return answer(status=0)
            return answer("top::Steps::on", lines=["fn top::Steps::far: proved"])

        cases = self.tried(check, "no_step.md", "far_one_later.edit")
        self.assertEqual((cases["no_step.md"].kind, cases["far_one_later.edit"].kind), (REFUSED, PROVED))
        self.assertEqual(self.asked, [["Steps::far", "Steps::on"], []])

    def test_a_function_whose_callee_failed_goes_into_the_next_check(self):
        answers = [answer("top::Steps::on", resting=["top::Steps::far"]), answer("top::Steps::far")]
        cases = self.tried(lambda texts: answers.pop(0), "no_step.md", "far_one_later.edit")
        self.assertEqual({it.kind for it in cases.values()}, {REFUSED})
        self.assertFalse(cases["far_one_later.edit"].is_alone)

    def test_a_page_that_does_not_compile_spoils_no_other(self):
        def check(texts):
            if "> FAR" in texts["src/lib.rt"]:
                return rattle_checks.answer_of(1, ["error[E1]: no", " --> src/lib.rt:19:9"])
            return answer("top::Steps::on")

        cases = self.tried(check, "no_step.md", "far_one_later.edit")
        self.assertEqual((cases["no_step.md"].kind, cases["far_one_later.edit"].kind), (REFUSED, FAULTY))
        self.assertIn("doesn't compile", cases["far_one_later.edit"].said)

    def test_a_killed_check_leaves_its_page_untried(self):
        cases = self.tried(lambda texts: rattle_checks.answer_of(-9, []), "no_step.md")
        self.assertEqual(cases["no_step.md"].kind, UNTRIED)
        self.assertFalse(cases["no_step.md"].is_well())

    def test_a_limit_of_the_prover_refuses(self):
        lines = ["fn top::Steps::on: could not tell", "antt ran out of stack", "rattle: no verdict"]
        cases = self.tried(lambda texts: rattle_checks.answer_of(3, lines), "no_step.md")
        self.assertEqual(cases["no_step.md"].kind, REFUSED)
        self.assertIn("by a limit", cases["no_step.md"].said)

    def test_a_text_that_is_not_read_is_faulty(self):
        lines = ["src/lib.rt:4:1: error: `far`: `x` is not in scope", "logic=not-proved"]
        cases = self.tried(lambda texts: rattle_checks.answer_of(1, lines, texts), "farther.md")
        self.assertEqual(cases["farther.md"].kind, FAULTY)

    def test_a_page_may_say_why_it_is_right(self):
        self.put("crates/top/must-fail/no_step.md", PAGES["no_step.md"] + "right: it counts from one\n")
        cases = self.tried(lambda texts: answer(status=0), "no_step.md", "far_one_later.edit")
        self.assertTrue(cases["no_step.md"].is_well())
        self.assertFalse(cases["far_one_later.edit"].is_well())
        self.assertFalse(self.tried(lambda texts: answer("top::Steps::on"), "no_step.md")["no_step.md"].is_well())

    def test_a_page_that_does_not_apply_is_not_tried(self):
        self.change("crates/top/src/lib.rt", "self.count >= FAR", "FAR <= self.count")
        cases = self.tried(lambda texts: answer("top::Steps::on"), "no_step.md", "far_one_later.edit")
        self.assertEqual((cases["no_step.md"].kind, cases["far_one_later.edit"].kind), (REFUSED, FAULTY))


class Records(InRepository):
    def test_a_record_is_current_until_something_changes(self):
        self.record_all()
        self.assertEqual(self.current()[0], 0)
        self.change("crates/low/src/lib.rt", "    helped(count)", "    1 + count")
        self.assertEqual(self.current()[0], 0)
        self.change("crates/low/src/lib.rt", "{ count < 9 }\n    ensures", "{ count < 8 }\n    ensures")
        status, said = self.current()
        self.assertEqual(status, 1)
        self.assertIn("an interface below changed", said)
        self.assertIn("to be tried again, by tools/wrong_bodies.py NAME..: top", said)

    def test_its_own_sources_count_whole(self):
        self.record_all()
        self.change("crates/top/src/lib.rt", "/// One step on.", "/// A step on.")
        self.assertEqual(self.current()[0], 0)
        self.change("crates/top/src/lib.rt", "n != 0", "n > 0")
        self.assertIn("its own files changed", self.current()[1])

    def test_one_changed_page_alone_is_tried_again(self):
        self.record_all()
        self.put("crates/top/must-fail/no_step.md", "# Other words.\n" + PAGES["no_step.md"].split("\n", 1)[1])
        self.assertEqual(self.current()[0], 0)
        self.change("crates/top/must-fail/no_step.md", "- 1", "- 2")
        status, said = self.current()
        self.assertEqual(status, 1)
        self.assertIn("1 of 4 pages have to be tried again (pages were added or changed): no_step.md", said)

    def test_untried_pages_can_be_allowed_and_changed_ones_cannot(self):
        self.assertEqual(self.current()[0], 1)
        status, said = self.current("--allow-untried")
        self.assertEqual(status, 0)
        self.assertIn("never tried, by crate: top 4", said)
        self.record_all()
        self.change("crates/top/src/lib.rt", "n != 0", "n > 0")
        self.assertEqual(self.current("--allow-untried")[0], 1)

    def test_a_page_that_is_gone_is_told(self):
        self.record_all()
        os.remove(f"{self.root}/crates/top/must-fail/no_step.md")
        self.assertIn("pages that are gone: no_step.md", self.current()[1])

    def test_a_page_that_does_not_apply_is_told(self):
        self.record_all()
        self.change("crates/top/src/lib.rt", "self.count >= FAR", "FAR <= self.count")
        self.assertIn("top/far_one_later.edit: an old text stands in src/lib.rt 0 times", self.current()[1])

    def test_what_is_no_page_is_told(self):
        self.record_all()
        self.put("crates/top/must-fail/notes.txt", "x")
        self.assertIn("top/notes.txt: a page's name ends in .edit or .md", self.current()[1])

    def test_pages_of_an_unlisted_crate_are_refused(self):
        self.put("crates/old/must-fail/a.md", "# It.\n")
        with contextlib.redirect_stderr(io.StringIO()) as err:
            self.assertEqual(wrong_bodies.main(["--current", "--root", self.root]), 2)
        self.assertIn("crates/old has pages", err.getvalue())

    def test_a_record_is_read_as_it_was_written(self):
        self.record_all()
        record = tried_record.read(self.top)
        self.assertEqual(record.kit, "kit 1")
        self.assertEqual(sorted(record.pages), sorted(PAGES))
        self.assertEqual(record.pages["no_step.md"][1], "`top::Steps::on`")


class Libraries(InRepository):
    def test_missing_and_older_libraries_are_told(self):
        self.assertEqual(rattle_checks.missing_below(self.top), ["low"])
        self.put("crates/low/out/rlib/low.rlib/format", "x")
        self.put("crates/low/out/rlib/stamp", "x")
        self.assertEqual(rattle_checks.missing_below(self.top), [])
        self.assertFalse(rattle_checks.is_older(self.low))
        os.utime(f"{self.root}/crates/low/out/rlib/stamp", (1, 1))
        self.assertTrue(rattle_checks.is_older(self.low))

    @unittest.skipUnless(shutil.which("rt"), "there is no rt here")
    def test_the_command_of_a_check(self):
        words = rattle_checks.Toolchain().words(self.top, "/kept", 2)
        self.assertIn(f"low={self.root}/crates/low/out/rlib/low.rlib", words)
        self.assertEqual(words[-4:], ["--jobs", "2", "--incremental", "/kept"])
        words = rattle_checks.Toolchain().words(self.top, "/kept", 1, ["even", "Steps::on"], True)
        self.assertIn("--only even --only Steps::on --allow-holes", " ".join(words))


class Runs(InRepository):
    """Runs over both crates, with answers of checks that are made up."""

    class Kit:
        def line(self):
            return "kit 1"

        def renew(self, crate):
            pass

    class Bench:
        checks, seconds = 1, 2.0

        def __init__(self, crate, toolchain, jobs):
            self.name = crate.name

        def __enter__(self):
            return self

        def __exit__(self, *_):
            pass

        def check(self, texts, only=(), gone=()):
            if self.name == "low":
                raise ValueError("no such thing")
            return answer(*(f"top::{it}" for it in only))

    def run_all(self, *words):
        out, kit, bench = io.StringIO(), self.Kit, self.Bench
        with mock.patch.multiple(wrong_bodies, Toolchain=kit, Bench=bench, missing_below=lambda crate: []):
            with contextlib.redirect_stdout(out):
                status = wrong_bodies.main(["--root", self.root, *words])
        return status, out.getvalue()

    def test_a_crate_that_fails_stops_no_other(self):
        self.put("crates/low/must-fail/two.md", "# It.\nfile: src/lib.rt\nold:     helped(count)\nnew:     2\n")
        status, said = self.run_all("--jobs", "2")
        self.assertEqual(status, 1)
        self.assertIn("error: low: NOT TRIED: ValueError: no such thing", said)
        self.assertIn("wrong bodies: 2 crates, 2 checks, 4 processor seconds, 1 errors", said)
        self.assertEqual(sorted(tried_record.read(self.top).pages), sorted(PAGES))
        self.assertEqual(tried_record.read(self.low).pages, {})

    def test_what_was_settled_before_a_failure_is_recorded(self):
        def check(bench, texts, only=(), gone=()):
            if "> FAR" in texts["src/lib.rt"]:
                return answer("top::Steps::on", "top::Steps::far")
            raise ValueError("no such thing")

        with mock.patch.object(self.Bench, "check", check):
            self.assertEqual(self.run_all("top")[0], 1)
        self.assertEqual(sorted(tried_record.read(self.top).pages), ["far_one_later.edit", "no_step.md"])


def built_interfaces():
    """Returns the libraries of this repository that are built as they stand, with the toolchain's own interface."""
    found = []
    for crate in crates_of(wrong_bodies.ROOT).values():
        folder = f"{rattle_checks.rlib_of(crate)}/interface/lang/src"
        if os.path.isdir(folder) and not rattle_checks.is_older(crate):
            found.append((crate, folder))
    return found


class AgainstTheToolchain(unittest.TestCase):
    """What the toolchain gives the crates above of a built library is in the interface that the records hang on."""

    HEADS = re.compile(r"\b(?:fn|struct|enum|trait|const|type|static) (\w+)")

    def heads(self, folder, parts, read):
        texts = [read(rattle_sources.text_of(f"{folder}/{it}")) for it in rattle_sources.files_of(folder, parts)]
        return {name for text in texts for name in self.HEADS.findall(text)}

    @unittest.skipUnless(built_interfaces(), "no library is built here")
    def test_no_head_is_lost(self):
        found = 0
        for crate, folder in built_interfaces():
            theirs = self.heads(folder, ["."], str)
            ours = self.heads(crate.folder, ["src"], interface_of)
            found += bool(theirs)
            self.assertEqual(theirs - ours, set(), crate.name)
        # (a library of tests alone has none)
        self.assertTrue(found)


if __name__ == "__main__":
    unittest.main()
