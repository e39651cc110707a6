"""The formats as docs/FORMATS.md has them: what is read, what is refused, and where."""
import pathlib
import tempfile
import unittest

from lens.example import EXAMPLE_ORDER, make_config, running_example, sample_keys
from lens.log import (
    CodecError,
    Cursor,
    InputError,
    Lasts,
    LogReader,
    SignedUnit,
    StandIn,
    Unit,
    config_fault,
    is_signed,
    read_as_far,
    read_config,
    read_full,
    read_head,
    read_keys,
    read_log,
    read_unit,
    spelled_config,
    spelled_log,
    spelled_unit,
    spelled_vertex,
    with_digest,
)

DATA = pathlib.Path(__file__).resolve().parents[3] / "crates" / "highway" / "data"


class Files(unittest.TestCase):
    """A folder for each test."""

    def setUp(self):
        room = tempfile.TemporaryDirectory(prefix="lens-")
        self.addCleanup(room.cleanup)
        self.room = pathlib.Path(room.name)

    def file(self, data, name="a.hwlg"):
        path = self.room / name
        path.write_bytes(data)
        return path

    def refused(self, data):
        """The text and the place with which these bytes are refused as a log."""
        with self.assertRaises(InputError) as caught:
            read_log(self.file(data))
        return caught.exception.text, caught.exception.place

    def refused_head(self, data):
        """The same of bytes without a whole head, of which nothing can be shown."""
        with self.assertRaises(InputError):
            read_as_far(self.file(data))
        return self.refused(data)


class Shipped(Files):
    def test_each_shipped_log_is_its_own_spelling(self):
        logs = sorted(DATA.glob("*.hwlg"))
        self.assertTrue(logs)
        for path in logs:
            log = read_log(path)
            self.assertIsNone(log.torn)
            self.assertEqual(log.size, path.stat().st_size)
            pairs = [(entry.verdict, entry.vertex) for entry in log.entries]
            self.assertEqual(spelled_log(log.config, pairs, log.version), path.read_bytes())

    def test_the_same_entries_in_the_other_version(self):
        for path in sorted(DATA.glob("*.hwlg")):
            log = read_log(path)
            pairs = [(entry.verdict, entry.vertex) for entry in log.entries]
            short = read_log(self.file(spelled_log(log.config, pairs, 2)))
            self.assertEqual(short.version, 2)
            self.assertEqual([(entry.verdict, entry.vertex) for entry in short.entries], pairs)
            self.assertIn(4, [entry.kind for entry in short.entries])
            for one, other in zip(short.entries, log.entries):
                self.assertEqual(one.vertex.unit.digest, other.vertex.unit.digest)

    def test_a_known_digest_and_its_signature(self):
        log, keys = read_log(DATA / "signed.hwlg"), read_keys(DATA / "three.keys", 3)
        known = "41f3cb4d41701b06b152c089d6e26690acbfd300899c7ba57bdb7de70f39315f"
        self.assertEqual(log.entries[0].vertex.unit.digest.hex(), known)
        self.assertTrue(all(is_signed(entry.vertex, keys) for entry in log.entries))
        self.assertFalse(any(is_signed(entry.vertex, keys) for entry in read_log(DATA / "four.hwlg").entries))


class Documented(unittest.TestCase):
    """The bytes that the documents spell out."""

    def test_the_unit(self):
        unit = Unit(bytes(32), 1, 0, 17, 4, ("-", "-"), b"x", ())
        tail = "00000001 0000000000000000 0000000000000011 04 00000002 00 00 01 00000001 78 00000000"
        self.assertEqual(spelled_unit(unit), bytes(32) + bytes.fromhex(tail))

    def test_the_configuration(self):
        said = bytes.fromhex(
            "01 00000003 0000000000000001 0000000000000001 0000000000000001 0000000000000000 01 04 08"
            "00 00000003 00000000 00000000 00000002 00020000 00001000"
        )
        config = read_config(said)
        self.assertEqual((config.weights, config.threshold, config.levels), ((1, 1, 1), 0, 1))
        self.assertEqual((config.leaders, config.end), ((0, 0, 2), None))
        self.assertEqual(spelled_config(config), said)
        self.assertEqual(make_config((1, 1, 1), 0, levels=1, leaders=(0, 0, 2)), config)

    def test_the_running_example(self):
        world = running_example()
        sizes = {name: len(spelled_unit(signed.unit)) for name, signed in world.units.items()}
        self.assertEqual((sizes["a0"], sizes["b0"], sizes["a1"]), (71, 98, 194))
        self.assertEqual(len(spelled_vertex(world.endorsement("b2", 1))), 69)

    def test_places(self):
        world = running_example()
        said = spelled_unit(world.units["a1"].unit)

        def refusal(data):
            cursor = Cursor(data)
            with self.assertRaises(CodecError) as caught:
                read_unit(cursor)
                cursor.finish()
            return str(caught.exception)

        self.assertEqual(refusal(said[:193]), "truncated at 162")
        self.assertEqual(refusal(said + b"!"), "trailing at 194")
        self.assertEqual(refusal(said[:57] + b"\x03" + said[58:]), "bad tag at 57")
        self.assertEqual(refusal(said[:44] + b"\x80" + said[45:]), "out of range at 44")
        self.assertEqual(refusal(said[:53] + (1025).to_bytes(4) + said[57:]), "too long at 53")

    def test_a_cut_vertex_is_truncated(self):
        world = running_example()
        for word in ("a1", "d0/f0", "b2:1"):
            said = spelled_vertex(world.vertex(word))
            self.assertEqual(read_full(said), world.vertex(word))
            for size in range(0, len(said), 3):
                with self.assertRaises(CodecError) as caught:
                    read_full(said[:size])
                self.assertEqual(caught.exception.what, "truncated")
                self.assertLessEqual(caught.exception.place, size)


class Faults(Files):
    """The named errors of a log, each at its place."""

    def setUp(self):
        super().setUp()
        self.world = running_example()
        self.pairs = self.world.pairs(EXAMPLE_ORDER)
        self.said = {version: spelled_log(self.world.config, self.pairs, version) for version in (1, 2)}
        self.head = 9 + len(spelled_config(self.world.config))

    def patched(self, at, data, version=1):
        said = self.said[version]
        return said[:at] + data + said[at + len(data) :]

    def test_heads(self):
        said = self.said[1]
        self.assertEqual(self.refused_head(b""), ("bad magic", 0))
        self.assertEqual(self.refused_head(b"HWL"), ("bad magic", 0))
        self.assertEqual(self.refused_head(b"HWCT" + said[4:]), ("bad magic", 0))
        self.assertEqual(self.refused_head(b"HWLG"), ("torn at 4", 4))
        self.assertEqual(self.refused_head(said[:8]), ("torn at 5", 5))
        self.assertEqual(self.refused_head(said[: self.head - 1]), ("torn at 9", 9))
        self.assertEqual(self.refused_head(self.patched(4, b"\x03")), ("version 3", 4))
        self.assertEqual(self.refused_head(self.patched(5, b"\xff")), ("too long at 5", 5))
        self.assertEqual(self.refused_head(self.patched(9, b"\x07")), ("config bad tag at 0", 9))
        self.assertEqual(self.refused_head(self.patched(14, bytes(8))), ("config zero weight 0", 9))

    def test_entries(self):
        at = self.head
        self.assertEqual(self.refused(self.patched(at, b"\x02")), (f"bad event at {at}", at))
        self.assertEqual(self.refused(self.patched(at + 1, b"\x02")), (f"bad verdict at {at}", at))
        self.assertEqual(self.refused(self.patched(at + 2, b"\xff")), (f"too long at {at}", at))
        self.assertEqual(self.refused(self.patched(at + 6, b"\x04")), (f"bad vertex at {at}: bad tag at 0", at))
        self.assertEqual(self.refused(self.patched(at + 6, b"\x04", 2)), (f"bad vertex at {at}: out of range at 1", at))

    def test_a_cut_is_a_torn_end_at_its_place(self):
        for said in self.said.values():
            ends = [self.head] + [entry.offset + entry.length for entry in read_log(self.file(said)).entries]
            near = {end + step for end in ends for step in (-1, 0, 1, 5, 6, 7)}
            for size in sorted(near & set(range(self.head, len(said) + 1))):
                log = read_log(self.file(said[:size]))
                begin = max(end for end in ends if end <= size)
                self.assertEqual(log.torn, None if size in ends else begin)
                self.assertEqual((log.size, len(log.entries)), (begin, ends.index(begin)))

    def test_what_comes_before_a_fault_is_read(self):
        entry = read_log(self.file(self.said[1])).entries[4]
        log = read_as_far(self.file(self.patched(entry.offset, b"\x02")))
        self.assertEqual((len(log.entries), log.size), (4, entry.offset))
        self.assertEqual(log.fault.text, f"bad event at {entry.offset}")

    def test_bytes_that_come_one_by_one(self):
        for said in self.said.values():
            reader, entries = LogReader(), []
            for at in range(len(said)):
                reader.feed(said[at : at + 1])
                entries += reader.entries()
            self.assertEqual(entries, read_log(self.file(said)).entries)

    def test_the_full_form_where_the_compact_one_is_due(self):
        lasts = Lasts(2, 4)
        lasts.note(self.world.units["b0"])
        with self.assertRaises(CodecError) as caught:
            lasts.read(spelled_vertex(self.world.units["b1"]))
        self.assertEqual(str(caught.exception), "bad tag at 0")
        with self.assertRaises(CodecError) as caught:
            lasts.read(spelled_vertex(self.world.units["b1"])[:-1])
        self.assertEqual(caught.exception.what, "truncated")

    def test_changes_of_the_compact_form(self):
        lasts = Lasts(2, 4)
        lasts.note(self.world.units["b0"])
        said = lasts.spelled(self.world.units["b1"])
        self.assertEqual(lasts.read(said), self.world.units["b1"])
        slot = 26
        self.assertEqual(said[slot : slot + 4], (2).to_bytes(4))
        for wrong in (1, 4):
            with self.assertRaises(CodecError) as caught:
                lasts.read(said[:slot] + wrong.to_bytes(4) + said[slot + 4 :])
            self.assertEqual(str(caught.exception), f"out of range at {slot}")
        with self.assertRaises(CodecError) as caught:
            lasts.read(said[: slot + 4] + b"\x00" + said[slot + 5 :])
        self.assertEqual(str(caught.exception), f"out of range at {slot + 4}")


class Limits(unittest.TestCase):
    def test_config_faults(self):
        self.assertIsNone(config_fault(make_config((1, 1), 0)))
        for fault, config in (
            ("validators", make_config((), 0)),
            ("zero weight 1", make_config((1, 0), 0)),
            ("total", make_config((1 << 61, 1 << 61), 0)),
            ("threshold", make_config((1, 1), 2)),
            ("levels", make_config((1, 1), 0, levels=31)),
            ("exponents", make_config((1, 1), 0, least=5, greatest=4)),
            ("leader table", make_config((1, 1), 0, leaders=(2,))),
            ("records", make_config((1,) * 257, 0, records=32769)),
            ("parked", make_config((1, 1), 0, parked=0)),
        ):
            self.assertEqual(config_fault(config), fault)


class Keys(Files):
    def test_faults(self):
        good = b"".join(key.hex().encode() + b"\n" for key in sample_keys(2))
        self.assertEqual(read_keys(self.file(good), 2), sample_keys(2))
        spaced, upper = good[:64] + b" " + good[65:], b"A" + good[1:]
        for data, count, place in ((good[:-1], 2, 129), (good, 3, 130), (good, 1, 65), (spaced, 2, 64), (upper, 2, 0)):
            with self.assertRaises(InputError) as caught:
                read_keys(self.file(data), count)
            self.assertEqual((caught.exception.text, caught.exception.place), (f"keys at {place}", place))

    def test_who_signs(self):
        world = running_example()
        for word in ("a0", "d0/f0", "b2:1"):
            self.assertTrue(is_signed(world.vertex(word), world.keys))
            self.assertFalse(is_signed(world.vertex(word), StandIn(world.keys[::-1])))
            self.assertFalse(is_signed(world.vertex(word), StandIn()))
        stranger = world.signed(with_digest(Unit(world.config.instance, 7, 0, 16, 4, ("-",) * 4, b"x", ())))
        self.assertIsInstance(stranger, SignedUnit)
        self.assertFalse(is_signed(stranger, world.keys))

    def test_a_head_alone(self):
        self.assertEqual(read_head(DATA / "both.hwlg"), read_log(DATA / "both.hwlg").config)
        with self.assertRaises(InputError):
            read_head(DATA / "keys")
        with self.assertRaises(InputError):
            read_head(self.room / "nothing")


if __name__ == "__main__":
    unittest.main()
