"""The rows that the program has in itself: `torchplan rows` tells those that docs/FORMATS.md lists."""
import os
import tempfile
import unittest
import unittest.mock

import paths
import answers
from lookups import Lookup
from packed_program import unpacked
from program import Program
from shipped import SHIPPED_ROWS, class_of, listed
from tables import Table

# Blocks that no shipped row fits, of other names and of other conditions.
OTHERS = [("minecraft:oak_slab", {}), ("stone", {}), ("minecraft:", {}), ("minecraft:Stone", {}), ("mod:stone", {}),
          ("minecraft:stone_", {}), ("a b\tc\\", {})]
EMPTY = Table("none", b"", None)
FELT = b'[[row]]\nname = "cave:felt"\nwhen = { wet = "true" }\nopacity = 0x3\nput = false\n'


def told(rows):
    """What the program tells of rows."""
    return [row and row[2:] for row in rows]


class Rows(unittest.TestCase):
    @classmethod
    def setUpClass(cls):
        cls.room = tempfile.TemporaryDirectory()
        cls.addClassCleanup(cls.room.cleanup)
        named = unittest.mock.patch.dict(os.environ, {"TORCHPLAN": unpacked(cls.room.name)})
        named.start()
        cls.addClassCleanup(named.stop)

    def test_those_that_are_listed(self):
        conditions = [{}, {"lit": "true"}, {"lit": "false"}, {"waterlogged": "true", "lit": "true"}]
        states = [(row.name.decode(), props) for row in SHIPPED_ROWS for props in conditions] + OTHERS
        self.assertEqual(told(answers.rows(Program(), states, EMPTY)), told(class_of([], state) for state in states))
        self.assertEqual(len(SHIPPED_ROWS), sum(len(names) for names, *_ in listed()))
        self.assertTrue(all(class_of([], state) is None for state in OTHERS))

    def test_a_table_before_them_in_any_toml(self):
        mine = FELT + b'[[row]]\nname = "minecraft:stone"\nopacity = 1_5\n[[row]]\nname = "*"\nopacity = 9\n'
        lookup = Lookup(Table("mine", mine, None))
        states = [("cave:felt", {"wet": "true"}), ("cave:felt", {}), ("minecraft:stone", {}), ("minecraft:water", {})]
        self.assertEqual([row.opacity for row in lookup.rows_of(states)], [3, 9, 15, 1])
        self.assertEqual([row.top for row in lookup.rows_of(states)], [False] * 4)

    def test_each_state_is_asked_for_once(self):
        made, lookup = class_of([], ("minecraft:lava", {}))._replace(name=b"made:1"), Lookup(EMPTY)
        states = [("minecraft:stone", {}), ("minecraft:air", {}), ("minecraft:stone", {}), ("made:1", {})]
        with unittest.mock.patch("answers.rows", wraps=answers.rows) as asked:
            self.assertEqual([row and row.stand for row in lookup.rows_of(states)], [True, False, True, None])
            more = lookup.with_made([made])
            self.assertEqual(more.rows_of([*states, ("minecraft:glass", {})])[3], made)
            self.assertIsNone(lookup.rows_of(states)[3])
        self.assertEqual([len(call.args[1]) for call in asked.call_args_list], [3, 1])


if __name__ == "__main__":
    unittest.main()
