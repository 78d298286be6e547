"""Levels of light that the program tells, by the Minecraft Wiki's "Light", and beside a calculation written apart."""
import os
import random
import tempfile
import unittest
import unittest.mock

import paths
import answers
import plans
import random_caves
from boxes import Box
from made import plan_of
from meaning import Cave
from packed_program import unpacked
from program import Program
from shipped import class_of
from structures import box_file

STONE, AIR, WATER, LAVA = [(f"minecraft:{name}", {}) for name in ("stone", "air", "water", "lava")]


def box_of(size, states):
    """A box of states by positions; the others have no entry."""
    used = dict.fromkeys((name, tuple(props.items())) for name, props in states.values())
    palette = [(name, dict(props)) for name, props in used]
    box = Box(size, palette, [Box.NO_ENTRY] * (size[0] * size[1] * size[2]))
    for at, state in states.items():
        box.cells[box.number(*at)] = palette.index(state)
    return box


class Levels(unittest.TestCase):
    @classmethod
    def setUpClass(cls):
        cls.room = tempfile.TemporaryDirectory()
        cls.addClassCleanup(cls.room.cleanup)
        named = unittest.mock.patch.dict(os.environ, {"TORCHPLAN": unpacked(cls.room.name)})
        named.start()
        cls.addClassCleanup(named.stop)

    def put(self, name, data):
        with open(os.path.join(self.room.name, name), "wb") as file:
            file.write(data)

    def levels(self, box, torches=None):
        """The levels of a box, with torches where any are told: of each its position and how it hangs."""
        self.put("cave.nbt", box_file(box))
        if torches is None:
            return list(answers.levels(Program(), self.room.name))
        self.put("plan.txt", plans.text_of_torches(plan_of(torches)).encode())
        return list(answers.levels(Program(), self.room.name, "plan.txt"))

    def test_a_torch_in_a_corridor(self):
        states = {(x, y, 0): (STONE, AIR)[y] for x in range(20) for y in (0, 1)}
        levels = self.levels(box_of((20, 2, 1), states), [(2, 1, 0, "floor")])
        self.assertEqual(levels, [0] * 20 + [12, 13, 14, *range(13, 0, -1), 0, 0, 0, 0])

    def test_light_goes_by_steps_not_by_the_straight_line(self):
        states = {(x, y, z): AIR for x in range(5) for y in range(5) for z in range(5)}
        box = box_of((5, 5, 5), {**states, (1, 1, 3): STONE})
        for number, level in enumerate(self.levels(box, [(1, 2, 3, "floor")])):
            x, y, z = box.position(number)
            around = 2 if (x, z) == (1, 3) and y == 0 else 0
            self.assertEqual(level, 0 if (x, y, z) == (1, 1, 3) else 14 - abs(x - 1) - abs(y - 2) - abs(z - 3) - around)

    def test_stone_water_and_lava(self):
        box = box_of((7, 1, 1), {(0, 0, 0): LAVA, (1, 0, 0): WATER, (2, 0, 0): AIR, (3, 0, 0): STONE, (4, 0, 0): AIR})
        self.assertEqual(self.levels(box), [15, 14, 13, 0, 0, 0, 0])

    def test_no_light_crosses_the_box_s_edge_or_a_cell_without_an_entry(self):
        states = {(x, y, z): AIR for x in range(3) for y in range(3) for z in range(3) if (x, y, z) != (1, 1, 1)}
        levels = self.levels(box_of((3, 3, 3), {**states, (2, 0, 0): ("minecraft:torch", {})}))
        self.assertEqual(levels[(0 * 3 + 2) * 3 + 0], 10)
        self.assertEqual(levels[(1 * 3 + 1) * 3 + 1], 0)

    def test_random_caves_as_by_a_calculation_apart(self):
        for seed in range(40):
            rng = random.Random(seed)
            size, states = random_caves.cave_of(rng)
            classes = {at: class_of([], state) for at, state in states.items()}
            cave = Cave(size, classes, 2, 1)
            torches = rng.sample(sorted(cave.hangs), min(seed % 4, len(cave.hangs)))
            told = [(*at, cave.hangs[at]) for at in torches] if torches else None
            levels, lit = self.levels(box_of(size, states), told), cave.with_torches(torches)
            self.assertEqual(levels, [lit.levels.get(lit.position(number), 0) for number in range(len(levels))])
        self.assertEqual(sorted(os.listdir(self.room.name)), ["cave.nbt", "plan.txt", "torchplan"])


if __name__ == "__main__":
    unittest.main()
