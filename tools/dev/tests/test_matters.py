"""What doesn't matter to a plan: by made rows the dark cells and places are the rest, and all else is as it was."""
import random
import unittest

import paths
import matters
import random_caves
from extents import Extent
from plans import Torch
from shipped import Apart
from test_levels import box_of
from test_shells import AIR, STONE, cave_of


class Rest(unittest.TestCase):
    def drawn(self, seed):
        rng, size = random.Random(seed), (11, 7, 11)
        cells, free = random_caves.rooms_of(rng, size)
        states = {at: AIR if at in free else STONE for at in cells}
        for at in rng.sample(cells, 5):
            states[at] = rng.choice([*random_caves.RARE, AIR, STONE])
        low = tuple(rng.randrange(side) for side in size)
        is_inside = matters.in_any([Extent(low, tuple(at + rng.randrange(6) for at in low))])
        return box_of(size, states), is_inside, rng.choice([1, 2])

    def test_the_cells_that_may_stay_dark_are_the_ones_that_no_longer_count(self):
        count = 0
        for seed in range(60):
            box, is_inside, headroom = self.drawn(seed)
            whole = cave_of(box, [], headroom, 1)
            read, rows = matters.without_ground(box, Apart(), is_inside)
            found = cave_of(read, rows, headroom, 1)
            self.assertEqual(found.dark, [at for at in whole.dark if not is_inside(at)])
            self.assertEqual((found.hangs, found.levels), (whole.hangs, whole.levels))
            for place in sorted(found.hangs)[::29]:
                self.assertEqual(found.lit_from(place), whole.lit_from(place))
            count += len(whole.dark) - len(found.dark)
        self.assertGreater(count, 30)

    def test_no_torch_where_none_may_be(self):
        count = 0
        for seed in range(60):
            box, is_inside, headroom = self.drawn(seed)
            whole = cave_of(box, [], headroom, 1)
            read, rows = matters.without_places(box, Apart(), is_inside)
            found = cave_of(read, rows, headroom, 1)
            self.assertEqual(found.hangs, {at: hang for at, hang in whole.hangs.items() if not is_inside(at)})
            self.assertEqual((found.dark, found.levels), (whole.dark, whole.levels))
            count += len(whole.hangs) - len(found.hangs)
        self.assertGreater(count, 30)

    def test_boxes_are_by_the_worlds_coordinates(self):
        box = box_of((3, 3, 1), {(x, y, 0): STONE if y == 0 else AIR for x in range(3) for y in range(3)})
        box.corner = (100, 50, -7)
        is_inside = matters.in_any([Extent((101, 0, -7), (102, 99, -7)), Extent((0, 0, 0), (1, 1, 1))])
        read, rows = matters.without_ground(box, Apart(), is_inside)
        self.assertEqual(cave_of(read, rows, 2, 1).dark, [(0, 1, 0)])

    def test_torches_that_light_only_what_nobody_gets_to(self):
        cells = {(x, y, 0): AIR if y in (1, 2) and x != 10 else STONE for x in range(21) for y in range(4)}
        box = box_of((21, 4, 1), cells)
        dark = cave_of(box, [], 2, 1).dark
        torches = [Torch(5, 1, 0, "floor"), Torch(15, 1, 0, "floor")]
        self.assertEqual(matters.apart(box, Apart(), torches, dark, 1, lambda at: at[0] < 10), torches[1:])
        self.assertEqual(matters.apart(box, Apart(), torches, dark, 1, lambda at: at[0] < 12), [])
        self.assertEqual(matters.apart(box, Apart(), torches, dark, 1, lambda at: False), torches)


if __name__ == "__main__":
    unittest.main()
