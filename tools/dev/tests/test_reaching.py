"""Where one gets to on foot, in a box and over an area."""
import random
import tempfile
import unittest

import paths
import area_walks
import extents
import made_worlds
import reaching
import sources
import worlds
from extents import Extent
from reaching import reached_from
from rows import Row
from shipped import Apart, class_of
from test_levels import box_of

STATES = {"#": ("minecraft:stone", {}), ".": ("minecraft:air", {}), "~": ("minecraft:water", {}),
          "H": ("cave:ladder", {}), "=": ("minecraft:glass", {}), "_": ("cave:slab", {})}
ROWS = [Row(name, {}, opacity, 0, *[False] * 5) for name, opacity in ((b"cave:ladder", 0), (b"cave:slab", 15))]


def profile(picture):
    """A box one cell deep, drawn from the side: the highest layer first."""
    lines = picture.split()
    tall = len(lines)
    return box_of((len(lines[0]), tall, 1), {(x, tall - 1 - row, 0): STATES[sign]
                                             for row, line in enumerate(lines) for x, sign in enumerate(line)})


class Reaching(unittest.TestCase):
    def gets(self, picture, start, goal):
        found = reached_from(profile(picture), Apart(ROWS), (*start, 0))
        return found((*goal, 0))

    def test_a_corridor_two_high(self):
        self.assertTrue(self.gets("######## #......# #......# ########", (1, 1), (6, 1)))
        self.assertFalse(self.gets("######## #..#...# #..#...# ########", (1, 1), (6, 1)))
        self.assertFalse(self.gets("######## #..=...# #..=...# ########", (1, 1), (6, 1)))

    def test_a_passage_one_high_lets_nobody_through(self):
        self.assertFalse(self.gets("######## #..##..# #......# ########", (1, 1), (6, 1)))

    def test_a_step_of_one_but_not_of_two(self):
        self.assertTrue(self.gets("######## #......# #......# #......# #...#### ########", (1, 1), (6, 2)))
        self.assertFalse(self.gets("######## #......# #......# #......# #...#### #...#### ########", (1, 1), (6, 3)))

    def test_a_step_needs_room_over_the_head(self):
        self.assertFalse(self.gets("######## ####...# #......# #...#### ########", (1, 1), (6, 2)))
        self.assertFalse(self.gets("######## ###....# #......# #..##### ########", (1, 1), (5, 2)))

    def test_any_fall_but_no_way_back(self):
        pit = "######## #......# #......# ####...# ####...# ####...# ########"
        self.assertTrue(self.gets(pit, (1, 4), (6, 1)))
        self.assertFalse(self.gets(pit, (6, 1), (1, 4)))

    def test_a_jump_carries_over_a_gap_but_not_a_chasm(self):
        gap = "{0} #{1}# #{1}# #{1}# #{2}# #{2}# #{2}# {0}"
        for wide, is_over in ((2, True), (3, True), (7, False)):
            picture = gap.format("#" * (wide + 8), "." * (wide + 6), "###" + "." * wide + "###")
            self.assertEqual(self.gets(picture, (2, 4), (wide + 5, 4)), is_over, wide)

    def test_climbing_and_swimming_up(self):
        for sign in "H~":
            shaft = "######## #......# #......# {0}... #...{0}### #...{0}### #...{0}### ########".replace("{0}...", "#...{0}###")
            self.assertTrue(self.gets(shaft.format(sign), (1, 1), (5, 5)), sign)
        self.assertFalse(self.gets(shaft.format("."), (1, 1), (5, 5)))

    def test_a_slab_is_walked_over(self):
        self.assertTrue(self.gets("######## #......# #.._...# ########", (1, 1), (6, 1)))

    def test_a_point_near_the_ground_counts_as_the_place_below_or_beside(self):
        picture = "######## #......# #......# #......# ########"
        self.assertTrue(self.gets(picture, (3, 3), (6, 1)))
        self.assertTrue(self.gets(picture, (0, 1), (6, 1)))
        self.assertIsNone(reached_from(profile("#" * 9 + " " + "#" * 9), Apart(ROWS), (4, 0, 0)))

    def test_points_of_a_world_are_its_own(self):
        box = profile("######## #......# #......# ########")
        box.corner = (100, -20, 7)
        found = reached_from(box, Apart(ROWS), (101, -19, 7))
        self.assertTrue(found((106, -19, 7)))
        self.assertFalse(found((6, 1, 0)))


def reached_apart(box, rows, start):
    """The cells that one gets to from a cell, one after the other, each with the steps in the air that are left."""
    flags = {}
    for number, cell in enumerate(box.cells):
        flags[box.position(number)] = reaching.flags_of(class_of(rows, box.palette[cell])) if cell >= 0 else 0
    beside = lambda at, x, y, z: (at[0] + x, at[1] + y, at[2] + z)
    is_through = lambda at: flags.get(at, 0) & reaching.THROUGH
    is_held = lambda at: flags[at] & reaching.HOLDS or not is_through(beside(at, 0, -1, 0))
    found, waiting = {}, [(start, 0)]
    while waiting:
        at, steps = waiting.pop()
        if not (is_through(at) and is_through(beside(at, 0, 1, 0))):
            continue
        steps = reaching.JUMP if is_held(at) else steps
        if steps <= found.get(at, -1):
            continue
        found[at] = steps
        waiting.append((beside(at, 0, -1, 0), steps))
        if is_held(at):
            waiting.append((beside(at, 0, 1, 0), reaching.JUMP - 1))
        if steps > 0:
            waiting += [(beside(at, x, 0, z), steps - 1) for x, z in ((1, 0), (-1, 0), (0, 1), (0, -1))]
    return set(found)


class Random(unittest.TestCase):
    def test_boxes_as_by_a_calculation_apart(self):
        count = 0
        for seed in range(60):
            rng = random.Random(seed)
            size = rng.randrange(1, 12), rng.randrange(2, 12), rng.randrange(1, 12)
            states = [STATES[sign] for sign in rng.choice(["#.", "#..~", "##...H=_", "#....."])]
            box = box_of(size, {(x, y, z): rng.choice(states) for x in range(size[0]) for y in range(size[1])
                                for z in range(size[2])})
            for number in rng.sample(range(len(box.cells)), len(box.cells) // 40):
                box.cells[number] = box.NO_ENTRY
            point = tuple(map(rng.randrange, size))
            found = reached_from(box, Apart(ROWS), point)
            if found is not None:
                places = list(map(box.position, range(len(box.cells))))
                is_room = lambda at: box.has(*at) and reached_apart(box, ROWS, at)
                start = next(filter(is_room, reaching.nearest(point)))
                due = reached_apart(box, ROWS, start)
                self.assertEqual({at for at in places if found(at)}, due)
                count += len(due)
        self.assertGreater(count, 1_000)

    def test_areas_as_the_box_that_has_them(self):
        count = 0
        for seed in range(2):
            rng, names = random.Random(seed), ["minecraft:air"] * 5 + ["minecraft:water", "minecraft:ladder"]
            open_part = rng.uniform(0.4, 0.8)
            cells = {(x, y, z): rng.choice(names) for x in range(-22, 44) for z in range(-20, 40) for y in range(12)
                     if rng.random() < open_part}
            with tempfile.TemporaryDirectory() as folder:
                made_worlds.write_world(folder, cells, [(x, z) for x in range(-2, 4) for z in range(-2, 3)], [0, 1])
                world = worlds.World(folder)
                extent = Extent((rng.randrange(-5, 1), 2, 1), (rng.randrange(18, 26), 8, rng.randrange(18, 23)))
                about, point = sources.extent_about(world, extent), (9, 5, 9)
                box = worlds.read_box(world, about)
                due = reached_from(box, Apart(), point)
                found = area_walks.Walk(world, about, Apart()).reached_from(point)
            part = found.near(extents.grown(extent, 2))
            for at in map(box.worldly, map(box.position, range(len(box.cells)))):
                self.assertEqual(found(at), due(at))
                if extents.has(extents.grown(extent, 2), at):
                    self.assertEqual(part(at), due(at))
                count += due(at)
            self.assertIsNone(area_walks.Walk(world, about, Apart()).reached_from((9, 90, 9)))
        self.assertGreater(count, 3_000)


if __name__ == "__main__":
    unittest.main()
