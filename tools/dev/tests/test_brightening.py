"""Torches that stand better: on caves whose best light is known, and on random ones beside a calculation apart."""
import random
import unittest

import paths
import brightening
import certificates
import random_caves
from fields import Field
from places import hangs_of, sign_of
from plans import Plan, Torch, text_of
from rows import Row
from shipped import Apart, class_of
from test_levels import box_of
from test_shells import AIR, STONE, cave_of
from windows import Window

FOG = [Row(b"cave:fog", {}, 3, 0, True, False, False, False, False)]


def room(wide, long, floor=STONE):
    """A room of `wide` by `long` cells, two high, within stone."""
    cells = {(x, y, z): STONE for x in range(wide + 2) for y in range(4) for z in range(long + 2)}
    for x in range(1, wide + 1):
        for z in range(1, long + 1):
            cells[x, 0, z] = floor
            cells[x, 1, z] = cells[x, 2, z] = AIR
    return box_of((wide + 2, 4, long + 2), cells)


def levels_of(box, cave):
    """The level of each cell of a box by its number, as its meaning has it."""
    return bytes(cave.levels.get(box.position(number), 0) for number in range(len(box.cells)))


def darkest(cave, torches):
    """The darkest of the cells that were dark, and all light of them, with new torches."""
    sources = {at: row.emission for at, row in cave.classes.items() if row.emission}
    levels = cave.levels_from({**sources, **{at: 14 for at in torches}})
    found = [levels.get(at, 0) for at in cave.dark]
    return min(found), sum(found)


def cover(cave, rng):
    """Some torches that light all dark cells that can be lit."""
    left, found = set(cave.dark), []
    places = sorted(cave.hangs)
    while left and places:
        place = places.pop(rng.randrange(len(places)))
        if cave.lit_from(place) & left:
            found.append(place)
            left -= cave.lit_from(place)
    return None if left else found


class Light(unittest.TestCase):
    def best(self, box, cave, torches, need=1):
        number = lambda at: box.number(*at)
        regions = [(list(map(number, cave.dark)), list(map(number, torches)))]
        moved = brightening.brightened(box, Apart(), levels_of(box, cave), regions, need)
        found = [tuple(moved[number(at)][:3]) if number(at) in moved else at for at in torches]
        for torch in moved.values():
            self.assertEqual(torch.hang, cave.hangs[torch[:3]])
        return found

    def test_one_torch_goes_to_the_middle_of_a_room(self):
        box = room(8, 8)
        cave = cave_of(box, [], 2, 1)
        for first in ((1, 1, 1), (8, 1, 1), (8, 2, 8), (2, 1, 7)):
            self.assertEqual(darkest(cave, self.best(box, cave, [first]))[0], 6, first)

    def test_torches_of_a_corridor_share_it(self):
        box = room(40, 1)
        cave = cave_of(box, [], 2, 1)
        found = self.best(box, cave, [(8, 1, 1), (34, 1, 1)])
        self.assertGreater(darkest(cave, found)[0], darkest(cave, [(8, 1, 1), (34, 1, 1)])[0])
        self.assertEqual(darkest(cave, found)[0], 4)

    def test_random_caves_stay_lit_and_never_get_darker(self):
        tried = 0
        for seed in range(150):
            rng, size = random.Random(seed), (11, 7, 11)
            cells, free = random_caves.rooms_of(rng, size)
            states = {at: AIR if at in free else STONE for at in cells}
            for at in rng.sample(cells, 25):
                states[at] = rng.choice([*random_caves.RARE, AIR, STONE])
            box, need = box_of(size, states), rng.choice([1, 8])
            cave = cave_of(box, [], 2, need)
            torches = cover(cave, rng)
            if not torches:
                continue
            tried += 1
            found = self.best(box, cave, torches, need)
            self.assertEqual(len(set(found)), len(torches))
            self.assertLessEqual(set(found), set(cave.hangs))
            lit = set().union(*map(cave.lit_from, found))
            self.assertLessEqual(set(cave.dark), lit)
            self.assertGreaterEqual(darkest(cave, found), darkest(cave, torches))
        self.assertGreater(tried, 40)

    def test_a_window_spreads_light_as_a_calculation_apart_does(self):
        for seed in range(30):
            rng, size = random.Random(seed), (11, 7, 11)
            cells, free = random_caves.rooms_of(rng, size)
            states = {at: AIR if at in free else STONE for at in cells}
            for at in rng.sample(cells, 60):
                states[at] = rng.choice([("minecraft:water", {}), AIR, ("cave:fog", {})])
            box = box_of(size, states)
            rows = [row for row in FOG if any(name == "cave:fog" for name, _ in box.palette)]
            field, cave = Field(box, Apart(rows)), cave_of(box, rows, 2, 1)
            hangs = sorted(hangs_of(box, Apart(rows)))
            for at in rng.sample(hangs, min(5, len(hangs))):
                at = box.position(at)
                window = Window(field, at, 5)
                spread = window.spread(window.bit(*at))
                levels = cave.levels_from({at: 14})
                for number in range(len(box.cells)):
                    place = box.position(number)
                    if sum(abs(a - b) for a, b in zip(place, at)) < 5:
                        level = max([level for level in range(1, 15) if spread[level] >> window.bit(*place) & 1], default=0)
                        self.assertEqual(level, levels.get(place, 0))

    def test_hangs_are_those_of_the_rules(self):
        for seed in range(40):
            rng = random.Random(seed)
            size, states = random_caves.cave_of(rng)
            box = box_of(size, states)
            cave = cave_of(box, [], 2, 1)
            self.assertEqual(hangs_of(box, Apart()), {box.number(*at): hang for at, hang in cave.hangs.items()})


class Texts(unittest.TestCase):
    def test_a_plan_is_printed_as_the_program_prints_it(self):
        for seed in range(40):
            rng = random.Random(seed)
            size, states = random_caves.cave_of(rng)
            box = box_of(size, states)
            cave = cave_of(box, [], 2, 1)
            places = rng.sample(sorted(cave.hangs), min(3, len(cave.hangs)))
            signs = [sign_of(class_of([], state)) for state in box.palette]
            for least in (None, 2):
                plan = Plan([Torch(*at, cave.hangs[at]) for at in places], len(cave.dark), least, {})
                self.assertEqual(text_of(plan, box, signs), cave.plan_text(places, least))

    def test_the_torches_of_a_certificate_are_replaced_and_nothing_else(self):
        text = ("torchproof 3\nbox 5 4 3\nheadroom 2\nneed 1\nregions 2\nregion 3 2\nD 1 2 3\nT 1 9\nB 1 1\nD 1 2\nL 1 3\n"
                "region 1 1\nD 7\nT 7\nL 1 7\nend\n")
        self.assertEqual(certificates.regions_of(text), [([1, 2, 3], [1, 9]), ([7], [7])])
        self.assertEqual(certificates.with_torches(text, {1: 30, 7: 8}),
                         text.replace("T 1 9", "T 9 30").replace("T 7", "T 8"))


if __name__ == "__main__":
    unittest.main()
