"""Tests of worst_logs.py: what its logs hold, read again by a reader of these tests."""
import contextlib
import hashlib
import io
import pathlib
import tempfile
import unittest

from measure import worst_logs


class Reader:
    """Reads numbers and pieces from left to right."""

    def __init__(self, data):
        self.data, self.place = data, 0

    def take(self, size):
        """The next so many bytes."""
        piece = self.data[self.place : self.place + size]
        assert len(piece) == size, f"torn at {self.place}"
        self.place += size
        return piece

    def number(self, size):
        """The next number."""
        return int.from_bytes(self.take(size), "big")


class Made:
    """A unit or an endorsement as it was read."""

    def __init__(self, vertex):
        reader = Reader(vertex)
        self.kind = reader.number(1)
        if self.kind == 3:
            self.endorsed, self.endorser = reader.take(32), reader.number(4)
            reader.take(32)
            return
        self.instance, self.creator, self.sequence = reader.take(32), reader.number(4), reader.number(8)
        self.time, self.exponent = reader.number(8), reader.number(1)
        self.panorama = [self.slot(reader) for _ in range(reader.number(4))]
        self.value = reader.take(reader.number(4)) if reader.number(1) else None
        self.list = [reader.take(32) for _ in range(reader.number(4))]
        self.name = hashlib.sha256(vertex[1 : reader.place]).digest()
        reader.take(32)
        assert reader.place == len(vertex)

    @staticmethod
    def slot(reader):
        """None, "faulty" or a name."""
        tag = reader.number(1)
        return {0: None, 2: "faulty"}[tag] if tag != 1 else reader.take(32)

    def cited(self):
        """The names in its panorama."""
        return {slot for slot in self.panorama if slot not in (None, "faulty")}


def vertices_of(words):
    """The configuration's digest and the vertices of the log that is written for these words."""
    with tempfile.TemporaryDirectory() as folder:
        path = pathlib.Path(folder) / "made.hwlg"
        kind, *rest = words.split()
        with contextlib.redirect_stdout(io.StringIO()) as told:
            assert worst_logs.main([kind, str(path), *rest]) == 0
        data = path.read_bytes()
    reader = Reader(data)
    assert reader.take(4) == b"HWLG" and reader.number(1) == 1
    instance = hashlib.sha256(reader.take(reader.number(4))).digest()
    found = []
    while reader.place < len(data):
        assert reader.take(2) == b"\1\1"
        found.append(Made(reader.take(reader.number(4))))
    assert told.getvalue() == f"entries {len(found)} bytes {len(data)}\n"
    return instance, found


def units_of(words):
    """The units of the log, and no endorsements."""
    return [made for made in vertices_of(words)[1] if made.kind == 1]


class Logs(unittest.TestCase):
    """What the logs of each kind hold."""

    def assert_lanes(self, units):
        """Each unit follows the one before it on its lane, and cites what came before alone."""
        names = {}
        for unit in units:
            self.assertLessEqual(unit.cited(), set(names))
            own = unit.panorama[unit.creator]
            self.assertEqual(unit.sequence, 0 if own is None else names[own].sequence + 1)
            names[unit.name] = unit

    def test_every_kind_names_its_instance_and_lanes(self):
        words = {
            "rounds": "--validators 4 --rounds 3",
            "lane": "--units 5",
            "solo": "--units 5",
            "equivocations": "--units 5",
            "stale": "--validators 6 --rounds 9",
            "swing": "--validators 6 --rounds 9",
            "falls": "--validators 6 --rounds 3",
        }
        for kind, options in words.items():
            with self.subTest(kind):
                instance, made = vertices_of(f"{kind} {options}")
                self.assertEqual({unit.instance for unit in made}, {instance})
                self.assert_lanes(made)

    def test_a_round_is_a_block_and_two_units_a_validator(self):
        units = units_of("rounds --validators 4 --rounds 3")
        self.assertEqual(len(units), 3 * (1 + 3 + 4))
        self.assertEqual([unit.creator for unit in units if unit.value], [1, 2, 3])
        self.assertTrue(all(None not in unit.panorama for unit in units[8:]))

    def test_the_silent_are_back_where_it_heals(self):
        units = units_of("rounds --validators 4 --rounds 6 --silent 2 --heal 5")
        times = [unit.time // worst_logs.ROUND for unit in units if unit.creator == 3]
        self.assertEqual(times, [1, 1, 5, 5, 6, 6])
        silent = units_of("rounds --validators 4 --rounds 6 --silent 2")
        self.assertEqual([unit.time // worst_logs.ROUND for unit in silent if unit.creator == 3], [1, 1])

    def test_equivocators_are_marked_by_all(self):
        _, made = vertices_of("rounds --validators 8 --rounds 4 --equivocators 3")
        units = [one for one in made if one.kind == 1]
        numbers = [(unit.creator, unit.sequence) for unit in units]
        doubled = {creator for creator, sequence in numbers if numbers.count((creator, sequence)) == 2}
        self.assertEqual(doubled, {5, 6, 7})
        marks = {creator for creator, slot in enumerate(units[-1].panorama) if slot == "faulty"}
        self.assertEqual(marks, doubled)
        endorsed = {one.endorsed for one in made if one.kind == 3}
        self.assertEqual(units[-1].list, sorted(endorsed))
        self.assertEqual(sorted(one.endorser for one in made if one.kind == 3), [0, 1, 2, 3])

    def test_second_lanes_are_not_cited(self):
        units = units_of("rounds --validators 4 --rounds 3 --second-lanes 4")
        cited = set().union(*(unit.cited() for unit in units))
        second = [unit for unit in units if unit.name not in cited and unit.time < 2 * worst_logs.ROUND]
        self.assertEqual(sorted(unit.creator for unit in second), [0, 2, 3])

    def test_endorsed_units_are_listed(self):
        _, made = vertices_of("rounds --validators 4 --rounds 4 --endorsed 2")
        first = {one.name for one in made if one.kind == 1 and (one.creator, one.sequence) in ((1, 0), (0, 0))}
        self.assertEqual({one.endorsed for one in made if one.kind == 3}, first)
        self.assertEqual(made[-1].list, sorted(first))

    def test_late_units_are_cited_later(self):
        units = units_of("rounds --validators 6 --rounds 4 --late 0.5")
        self.assert_lanes(units)
        whole = units_of("rounds --validators 6 --rounds 4")
        self.assertNotEqual([unit.name for unit in units], [unit.name for unit in whole])

    def test_orders_have_the_same_units(self):
        for kind in ("rounds --validators 4 --rounds 3", "lane --units 9", "solo --units 9"):
            with self.subTest(kind):
                made = [unit.name for unit in units_of(kind)]
                self.assertEqual([unit.name for unit in units_of(f"{kind} --order reversed")], made[::-1])
        made = [unit.name for unit in units_of("lane --units 9")]
        shuffled = [unit.name for unit in units_of("lane --units 9 --order shuffled")]
        self.assertEqual(sorted(shuffled), sorted(made))
        self.assertNotEqual(shuffled, made)

    def test_those_who_wait_come_first(self):
        *waiting, root = units_of("fan --units 5")
        self.assertEqual({frozenset(unit.cited()) for unit in waiting}, {frozenset([root.name])})
        units = units_of("needs --validators 4 --units 5")
        waiting, firsts = units[:5], units[5:]
        self.assertEqual({frozenset(unit.cited()) for unit in waiting}, {frozenset(unit.name for unit in firsts)})

    def test_what_never_comes(self):
        units = units_of("missing --validators 4 --units 5")
        cited = [name for unit in units for name in unit.cited()]
        self.assertEqual(len(set(cited)), 20)
        self.assertFalse(set(cited) & {unit.name for unit in units})
        _, made = vertices_of("endorsements --validators 4 --units 5")
        self.assertEqual(len({one.endorsed for one in made}), 5)
        self.assertEqual([one.endorser for one in made], [0, 1, 2, 3, 0])

    def test_equivocations_have_one_number(self):
        units = units_of("equivocations --units 5")
        self.assertEqual({(unit.creator, unit.sequence) for unit in units}, {(0, 0)})
        self.assertEqual(len({unit.name for unit in units}), 5)

    def test_two_sides_cite_their_own_alone(self):
        units = {unit.name: unit for unit in units_of("swing --validators 6 --rounds 9")}
        for unit in units.values():
            self.assertEqual({units[name].creator % 2 for name in unit.cited()} - {unit.creator % 2}, set())

    def test_the_last_of_a_chain_sees_one_less_than_a_quorum(self):
        units = units_of("falls --validators 8 --rounds 2")
        seen = {unit.creator: len(unit.cited()) for unit in units if unit.sequence == 1}
        self.assertEqual(seen, {**dict.fromkeys(range(7), 5), 7: 4})

    def test_a_cascade_waits_for_its_last_unit(self):
        units = units_of("cascade --validators 4 --units 9")
        names = {unit.name for unit in units[:-1]}
        self.assertEqual(len(units), 6 * (1 + 3 + 4) + 9 + 1)
        self.assertTrue(all(units[-1].name in unit.cited() for unit in units[-10:-1]))
        self.assertLessEqual(units[-1].cited(), names)
        self.assertEqual(len(units_of("cascade --validators 4 --units 9 --withheld")), len(units) - 1)


class Words(unittest.TestCase):
    """What is refused."""

    def assert_refused(self, words, says):
        with contextlib.redirect_stderr(io.StringIO()) as said, self.assertRaises(SystemExit) as ended:
            worst_logs.main(words.split())
        self.assertEqual(ended.exception.code, 2)
        self.assertIn(says, said.getvalue())

    def test_words_outside_the_grammar(self):
        self.assert_refused("", "KIND")
        self.assert_refused("even a.hwlg", "invalid choice")
        self.assert_refused("rounds", "LOG")
        self.assert_refused("rounds a.hwlg --rounds -1", "-1 is below 0")
        self.assert_refused("rounds a.hwlg --late 2", "isn't between 0 and 1")
        self.assert_refused("rounds a.hwlg --units 3", "unrecognized arguments")
        self.assert_refused("rounds a.hwlg --validators 0", "1 to 1,024 validators")
        self.assert_refused("fan a.hwlg --validators 1", "fan is of 2 to 1,024 validators")
        self.assert_refused("rounds a.hwlg --validators 1025", "1 to 1,024 validators")
        self.assert_refused("rounds a.hwlg --validators 4 --equivocators 5", "--equivocators: there are 4 validators")

    def test_a_file_that_cannot_be_written(self):
        with contextlib.redirect_stderr(io.StringIO()) as said:
            self.assertEqual(worst_logs.main(["fan", "/nowhere/a.hwlg", "--units", "1"]), 2)
        self.assertEqual(said.getvalue(), "/nowhere/a.hwlg: No such file or directory\n")


if __name__ == "__main__":
    unittest.main()
