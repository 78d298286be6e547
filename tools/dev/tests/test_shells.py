"""The shell of a box of a world: by it the dark cells of the box are those that it has within the world."""
import random
import unittest

import paths
import random_caves
import shells
from boxes import Box
from fields import Field
from meaning import Cave
from shipped import Apart, class_of
from test_levels import box_of

STONE, AIR, LAVA, GLASS = [(f"minecraft:{name}", {}) for name in ("stone", "air", "lava", "glass")]


def cave_of(box, rows, headroom, need):
    """The meaning of a box, calculated apart."""
    classes = {box.position(number): class_of(rows, box.palette[cell])
               for number, cell in enumerate(box.cells) if cell != Box.NO_ENTRY}
    return Cave(box.size, {at: row for at, row in classes.items() if row is not None}, headroom, need)


def moved(cells, by):
    return {tuple(at + more for at, more in zip(cell, by)) for cell in cells}


class Light(unittest.TestCase):
    def test_light_of_random_caves_as_by_a_calculation_apart(self):
        for seed in range(60):
            rng = random.Random(seed)
            size, states = random_caves.cave_of(rng, own=0.1)
            box = box_of(size, states)
            field, cave = Field(box, Apart()), cave_of(box, [], 2, 1)
            levels = shells.light_of(field)
            for number in range(len(box.cells)):
                self.assertEqual(levels[field.place(number)], cave.levels.get(box.position(number), 0))


class Around(unittest.TestCase):
    def compare(self, around, low, size, headroom=2, need=1):
        """The dark cells of a part of a larger box, by its shell and in the larger box."""
        around.corner = (0, 0, 0)
        whole = cave_of(around, [], headroom, need)
        box = around.part([at - 1 for at in low], [side + 2 for side in size])
        read, rows = shells.shelled(box, around, Apart(), headroom)
        found = cave_of(read, rows, headroom, need)
        inside = {at for at in whole.dark if all(a <= b < a + side for a, b, side in zip(low, at, size))}
        self.assertEqual(moved(found.dark, [at - 1 for at in low]), inside)
        # no torch may stand in the shell, and those of the box light no more than they do in the world
        places = moved(found.hangs, [at - 1 for at in low])
        self.assertEqual(places, {at for at in whole.hangs if all(a <= b < a + side for a, b, side in zip(low, at, size))})
        for place in sorted(places)[::7]:
            lit = moved(found.lit_from(tuple(a - b + 1 for a, b in zip(place, low))), [at - 1 for at in low])
            self.assertLessEqual(lit & inside, whole.lit_from(place) & inside)
        return inside

    def test_random_worlds_at_both_headrooms_and_needs(self):
        count = 0
        for seed in range(80):
            rng, size = random.Random(seed), (12, 9, 12)
            cells, free = random_caves.rooms_of(rng, size)
            states = {at: AIR if at in free else STONE for at in cells}
            for at in rng.sample(cells, 40):
                states[at] = rng.choice([*random_caves.RARE, *random_caves.GROUND, AIR])
            for at in rng.sample(cells, rng.choice([0, 9])):
                del states[at]
            inner = [rng.randrange(2, side - 2) for side in size]
            low = [rng.randrange(1, side - part) for side, part in zip(size, inner)]
            count += len(self.compare(box_of(size, states), low, inner, rng.choice([1, 2]), rng.choice([1, 8])))
        self.assertGreater(count, 50)

    def test_light_of_a_torch_passes_the_shell_as_in_the_world(self):
        # the way around a pillar leads through the layer beside the box, which is water, or stone
        for state, count in ((AIR, 2), (("minecraft:water", {}), 2), (STONE, 1)):
            passage = {(x, 1, z): state for x in range(1, 6) for z in (1,)}
            cells = {**{(x, y, z): STONE for x in range(7) for y in range(5) for z in range(5)}, **passage,
                     **{(x, y, 2): AIR for x in (1, 5) for y in (1, 2)}}
            self.assertEqual(len(self.compare(box_of((7, 5, 5), cells), (1, 1, 2), (5, 2, 1))), 2)
            around = box_of((7, 5, 5), cells)
            around.corner = (0, 0, 0)
            read, rows = shells.shelled(around.part((0, 0, 1), (7, 4, 3)), around, Apart(), 2)
            self.assertEqual(len(cave_of(read, rows, 2, 1).lit_from((1, 1, 1)) & {(1, 1, 1), (5, 1, 1)}), count)

    def hall(self, **more):
        """A hall of 9 x 3 x 9 cells within stone, with other blocks at some positions."""
        cells = {(x, y, z): AIR if 1 <= y <= 3 and 1 <= x <= 9 and 1 <= z <= 9 else STONE
                 for x in range(11) for y in range(5) for z in range(11)}
        return {**cells, **more.get("cells", {})}

    def test_a_lamp_beside_the_box_lights_it(self):
        inside = self.compare(box_of((11, 5, 11), self.hall()), (4, 1, 4), (3, 2, 3))
        self.assertEqual(len(inside), 9)
        lit = self.hall(cells={(1, 1, 5): ("minecraft:lantern", {})})
        self.assertEqual(self.compare(box_of((11, 5, 11), lit), (4, 1, 4), (3, 2, 3)), set())

    def test_floor_and_room_beyond_the_box_are_known(self):
        around = box_of((11, 5, 11), self.hall())
        # the floor lies below the box, and the headroom above it
        self.assertEqual(len(self.compare(around, (4, 1, 4), (3, 1, 3))), 9)
        self.assertEqual(len(self.compare(around, (4, 1, 4), (3, 1, 3), headroom=1)), 9)
        self.assertEqual(len(self.compare(around, (4, 3, 4), (3, 1, 3))), 0)

    def test_what_lies_above_the_box_is_no_room_to_spawn_in(self):
        ground = self.hall(cells={(5, 1, 5): STONE})
        self.assertEqual(len(self.compare(box_of((11, 5, 11), ground), (4, 1, 4), (3, 1, 3), headroom=1)), 8)

    def test_walls_beyond_the_box_hold_torches(self):
        around = box_of((11, 5, 11), self.hall(cells={(x, 0, z): GLASS for x in range(11) for z in range(11)}))
        around.corner = (0, 0, 0)
        read, rows = shells.shelled(around.part((0, 1, 0), (11, 3, 11)), around, Apart(), 2)
        hangs = cave_of(read, rows, 2, 1).hangs
        self.assertEqual(hangs[1, 1, 5], "east")
        self.assertNotIn((5, 1, 5), hangs)

    def test_where_nothing_is_known_of_the_world_nothing_is_told(self):
        cells = {at: state for at, state in self.hall().items() if at[1] > 0}
        self.assertEqual(self.compare(box_of((11, 5, 11), cells), (4, 1, 4), (3, 1, 3)), set())

    def test_a_block_that_no_table_has_stops_light_where_it_is_far(self):
        lit = self.hall(cells={(1, 1, 5): LAVA, (2, 1, 5): ("mod:glow", {})})
        around = box_of((11, 5, 11), lit)
        around.corner = (0, 0, 0)
        read, rows = shells.shelled(around.part((3, 0, 3), (5, 4, 5)), around, Apart(), 2)
        self.assertGreater(max(row.emission for row in rows), 0)


if __name__ == "__main__":
    unittest.main()
