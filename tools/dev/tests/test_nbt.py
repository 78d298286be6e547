"""The reader of NBT, by the rules of docs/FORMATS.md ("NBT", "Fault lines") and the Minecraft Wiki's "NBT format"."""
import unittest
import unittest.mock

import paths
from nbt_reader import root_of, text_of
from refusals import Refusal
from saved_worlds import Byte, Longs, nbt

COMPOUND, LIST, INT, TEXT, LONGS, BYTE = 10, 9, 3, 8, 12, 1
ROOT = b"\x0a\0\0"


class Reading(unittest.TestCase):
    def fault(self, data):
        with self.assertRaises(Refusal) as seen:
            root_of(data)
        return str(seen.exception)

    def test_each_kind(self):
        numbers = b"\2\0\1s\xff\xfe" + b"\4\0\1l" + b"\xff" * 8
        numbers += b"\5\0\1f\x3f\x80\0\0" + b"\6\0\1d\x3f\xf0" + b"\0" * 6
        arrays = b"\7\0\1b\0\0\0\2\1\2" + b"\x0b\0\1i\0\0\0\1\0\0\0\7"
        root = root_of(ROOT + numbers + arrays + b"\0")
        self.assertEqual(root, {
            b"s": (2, -2), b"l": (4, -1), b"f": (5, 1.0), b"d": (6, 1.0), b"b": (7, b"\1\2"), b"i": (11, b"\0\0\0\7"),
        })
        root = root_of(nbt({"y": Byte(-4), "n": 7, "t": "hall", "a": Longs([1]), "in": {"x": 1}, "many": [1, 2, 3]}))
        self.assertEqual(root[b"y"], (BYTE, -4))
        self.assertEqual(root[b"n"], (INT, 7))
        self.assertEqual(root[b"t"], (TEXT, b"hall"))
        self.assertEqual(root[b"a"], (LONGS, b"\0" * 7 + b"\1"))
        self.assertEqual(root[b"in"], (COMPOUND, {b"x": (INT, 1)}))
        self.assertEqual(root[b"many"], (LIST, (INT, [1, 2, 3])))

    def test_lists_of_lists_and_compounds(self):
        root = root_of(nbt({"a": [[1], [2, 3], []], "b": [{"x": 1}, {}, {"y": "z"}], "c": 4}))
        self.assertEqual(root[b"a"], (LIST, (LIST, [(INT, [1]), (INT, [2, 3]), (0, [])])))
        self.assertEqual(root[b"b"], (LIST, (COMPOUND, [{b"x": (INT, 1)}, {}, {b"y": (TEXT, b"z")}])))
        self.assertEqual(root[b"c"], (INT, 4))

    def test_of_two_entries_with_one_name_the_last_counts(self):
        self.assertEqual(root_of(ROOT + b"\1\0\1a\1\1\0\1a\2\0"), {b"a": (BYTE, 2)})

    def test_what_is_left_out_is_read_over(self):
        data = nbt({"a": {"x": [{"y": 1}, {"z": [[1]]}]}, "b": {"a": 1, "c": 2}})
        self.assertEqual(root_of(data, frozenset([b"a"])), {b"b": (COMPOUND, {b"c": (INT, 2)})})
        with self.assertRaises(Refusal):
            root_of(ROOT + b"\x0a\0\1a\x0d\0\0", frozenset([b"a"]))

    def test_bytes_behind_the_root_are_ignored(self):
        self.assertEqual(root_of(nbt({}) + b"more"), {})

    def test_a_list_without_items_may_have_any_kind(self):
        for kind in range(13):
            for count in (b"\0\0\0\0", b"\xff\xff\xff\xff"):
                root = root_of(ROOT + b"\x09\0\1a" + bytes([kind]) + count + b"\0")
                self.assertEqual(root, {b"a": (LIST, (kind, []))})

    def test_faults(self):
        self.assertEqual(self.fault(b""), "nbt: truncated at 0")
        self.assertEqual(self.fault(b"\x1f\x8b\x08"), "nbt: compressed")
        self.assertEqual(self.fault(b"\x03\0\0"), "nbt: root is no compound")
        self.assertEqual(self.fault(ROOT + b"\x0d\0\0"), "nbt: bad tag 13 at 3")
        self.assertEqual(self.fault(ROOT + b"\x07\0\1a\xff\xff\xff\xff"), "nbt: bad length at 7")
        self.assertEqual(self.fault(ROOT + b"\x09\0\1a\0\0\0\0\1"), "nbt: bad length at 8")
        self.assertEqual(self.fault(ROOT + b"\x09\0\1a\x0e\0\0\0\0"), "nbt: bad tag 14 at 7")

    def test_every_cut_is_told_with_its_length(self):
        data = nbt({"a": [1, 2], "b": {"c": ["x", "yy"]}, "d": Longs([1]), "e": [{"f": Byte(1)}, {"g": "h"}]})
        for length in range(len(data)):
            self.assertEqual(self.fault(data[:length]), f"nbt: truncated at {length}")

    def test_no_more_lists_and_compounds_than_memory_bears(self):
        data, wide = nbt({"a": [{}] * 9}), nbt({"b": [{}] * 10, "c": []})
        with unittest.mock.patch("nbt_reader.MOST", 11):
            self.assertEqual(len(root_of(data)[b"a"][1][1]), 9)
            self.assertEqual(self.fault(wide), "nbt: more than 11 lists and compounds")
            self.assertEqual(root_of(wide, frozenset([b"b"])), {b"c": (LIST, (0, []))})

    def test_nested_512_deep(self):
        compounds = lambda depth: ROOT + b"\x0a\0\0" * (depth - 1) + b"\0" * depth
        root = root_of(compounds(512))
        for _ in range(511):
            root = root[b""][1]
        self.assertEqual(root, {})
        self.assertEqual(self.fault(compounds(513)), f"nbt: too deep at {3 * 513}")
        lists = lambda depth: ROOT + b"\x09\0\0" + b"\x09\0\0\0\1" * (depth - 2) + b"\0\0\0\0\0" + b"\0"
        self.assertIn(b"", root_of(lists(512)))
        self.assertEqual(self.fault(lists(513)), f"nbt: too deep at {6 + 5 * 511}")


class Texts(unittest.TestCase):
    def test_modified_utf_8(self):
        self.assertEqual(text_of(b"stone"), "stone")
        self.assertEqual(text_of("K\u00e4se".encode()), "K\u00e4se")
        self.assertEqual(text_of(b"a\xc0\x80b"), "a\0b")
        self.assertEqual(text_of(b"\xed\xa0\xbd\xed\xb8\x80"), "\U0001f600")

    def test_what_is_none_is_marked(self):
        self.assertEqual(text_of(b"a\xff"), "a\ufffd")
        self.assertEqual(text_of(b"\xed\xa0\xbd"), "\ufffd")


if __name__ == "__main__":
    unittest.main()
