"""An area of a world: its caves, the pieces in which it is planned, and the run over them."""
import itertools
import os
import random
import tempfile
import unittest
import unittest.mock

import paths
import area_runs
import areas
import cuts
import extents
import matters
import pieces
import random_caves
import shells
import sources
import worlds
from area_runs import AreaRun, Result
from extents import Extent
from pieces import Piece
from refusals import Refusal
from saved_worlds import V1_21, Saved
from shipped import Apart
from test_levels import box_of
from test_shells import AIR, STONE, cave_of

STEPS = [(1, 0, 0), (-1, 0, 0), (0, 1, 0), (0, -1, 0), (0, 0, 1), (0, 0, -1)]


def caves_apart(is_open):
    """The parts of cells that no step leads between."""
    left, found = set(is_open), []
    while left:
        part, waiting = set(), [left.pop()]
        while waiting:
            at = waiting.pop()
            part.add(at)
            for step in STEPS:
                other = tuple(a + b for a, b in zip(at, step))
                if other in left:
                    left.discard(other)
                    waiting.append(other)
        found.append(part)
    return found


class Caves(unittest.TestCase):
    def test_they_are_the_parts_that_no_light_crosses(self):
        for seed in range(3):
            rng = random.Random(seed)
            cells = {(x, y, z) for x in range(32) for y in range(-4, 8) for z in range(32) if rng.random() < 0.24}
            # light passes water and glass too, in which nobody spawns and which are no ground
            others = {at: rng.choice([("minecraft:water", {}), ("minecraft:glass", {})]) for at in sorted(cells)[::5]}
            is_stone = lambda at: at not in cells
            is_air = lambda at: at in cells and at not in others
            block = lambda *at: others.get(at) or (AIR if at in cells else STONE)
            with tempfile.TemporaryDirectory() as folder:
                Saved(folder, version=V1_21).fill(block, [-1, 0], [(0, 0), (0, 1), (1, 0), (1, 1)], V1_21)
                extent = Extent((3, -3, 2), (29, 7, 30))
                headroom = 1 + seed % 2
                found, unknown = areas.caves_of(worlds.World(folder), extent, Apart(), headroom)
            inside = {at for at in cells if all(a <= b <= c for a, b, c in zip(extent.low, at, extent.high))}
            due = caves_apart(inside)
            self.assertEqual((len(found), unknown), (len(due), []))
            self.assertGreater(len(due), 100)
            by_cell = {at: part for part in due for at in part}
            for cave in found:
                part = by_cell[cave.seed]
                low, high = tuple(map(min, zip(*part))), tuple(map(max, zip(*part)))
                self.assertEqual(cave.extent, (low, high))
                self.assertEqual(cells_of(cave), sorted(part))
                room = any(is_air((x, y, z)) and (headroom == 1 or is_air((x, y + 1, z))) and is_stone((x, y - 1, z))
                           for x, y, z in part)
                self.assertEqual(cave.has_room, room)

    def test_torches_that_stand_already_light_what_is_read_later(self):
        # a corridor along x, of which one half is read while a torch stands in the other
        block = lambda x, y, z: AIR if y in (5, 6) and z == 8 and 0 < x < 15 else STONE
        with tempfile.TemporaryDirectory() as folder:
            Saved(folder, version=V1_21).fill(block, [0], [(0, 0)], V1_21)
            world, extent = worlds.World(folder), Extent((8, 4, 7), (15, 8, 9))
            for torches, level in (([], 0), ([[3, 5, 8, "floor"]], 10), ([[9, 5, 8, "floor"]], 12)):
                cave = sources.read_world(world, extent, "x", torches)
                read, rows = shells.shelled(cave.box, cave.around, Apart(), 2)
                name, _ = read.state_at(0, 2, 2)  # the shell's cell at 7 5 8
                self.assertEqual(next(row.emission for row in rows if row.name == name.encode()), level)
                inside = cave.box.state_at(2, 2, 2)
                self.assertEqual(inside[0], "minecraft:torch" if level == 12 else "minecraft:air")

    def test_blocks_that_no_row_fits_are_told(self):
        with tempfile.TemporaryDirectory() as folder:
            Saved(folder, version=V1_21).fill(lambda x, y, z: (f"mod:b{x // 8}", {}), [0], [(0, 0)], V1_21)
            found, unknown = areas.caves_of(worlds.World(folder), Extent((0, 2, 0), (15, 5, 15)), Apart(), 2)
        self.assertEqual((found, unknown), ([], ["mod:b0", "mod:b1"]))


def cells_of(cave):
    """The cells of a cave, by its runs."""
    runs = list(zip(*[iter(cave.runs)] * 4))
    return sorted((x, y, z) for first, last, y, z in runs for x in range(first, last + 1))


def cave(low, size, has_room=True):
    extent = extents.sized(low, size)
    (first, bottom, north), (last, top, south) = extent
    runs = [number for y in range(bottom, top + 1) for z in range(north, south + 1) for number in (first, last, y, z)]
    return areas.Cave(extent, low, runs, has_room, [])


def cave_of_cells(cells):
    """A cave of cells, each a run of its own."""
    extent = Extent(tuple(map(min, zip(*cells))), tuple(map(max, zip(*cells))))
    return areas.Cave(extent, min(cells), [number for x, y, z in sorted(cells) for number in (x, x, y, z)], True, [])


class Pieces(unittest.TestCase):
    def test_small_caves_stand_together_and_those_without_room_nowhere(self):
        caves = [cave((x * 12, 5, z * 12), (9, 4, 9)) for x in range(20) for z in range(20)]
        found = pieces.pieces_of([*caves, cave((7, 50, 7), (2, 1, 2), False)])
        self.assertCountEqual([seed for piece in found for seed in piece.seeds], [cave.seed for cave in caves])
        self.assertTrue(all(extents.is_small(piece.extent) for piece in found))
        self.assertLess(len(found), 40)

    def test_what_does_not_fit_is_cut_into_parts_that_cover_it(self):
        large = cave((-40, -60, 3), (400, 90, 300))
        found = pieces.pieces_of([large, cave((500, 0, 0), (5, 5, 5))])
        self.assertEqual([bool(piece.seeds) for piece in found], [True] + [False] * (len(found) - 1))
        parts = [piece.extent for piece in found[1:]]
        self.assertTrue(all(map(extents.is_small, parts)))
        self.assertEqual(sum(extents.count_of(extents.size_of(part)) for part in parts), 400 * 90 * 300)
        self.assertFalse(any(extents.within(one, other) for one, other in itertools.combinations(parts, 2)))

    def test_it_is_cut_in_the_middle_half_wherever_that_is(self):
        for side in range(2, 20):
            for axis in range(3):
                size = [3, 3, 3]
                size[axis] = side
                found = cave((-5, -5, -5), tuple(size))
                plane = cuts.narrowest(cuts.cells_of([found]), axis, found.extent)
                self.assertEqual(plane, -5 + side // 2)

    def test_it_is_cut_where_fewest_cells_touch(self):
        # two halls and a passage between them, which is thinnest in one place: not at a multiple of 16
        for axis in range(3):
            turned = lambda at: at[-axis:] + at[:-axis]
            is_open = lambda x, y, z: (2 <= x <= 40 or 60 <= x <= 97) and y < 9 or 3 <= y < (4 if x == 51 else 6) and z < 4
            cells = {turned((x, y, z)) for x in range(100) for y in range(9) for z in range(9) if is_open(x, y, z)}
            found = cave_of_cells(cells)
            held = cuts.cells_of([found])
            self.assertEqual(cuts.narrowest(held, axis, found.extent), 51)
            due = {plane: sum(turned((plane, *at)) in cells and turned((plane - 1, *at)) in cells
                              for at in itertools.product(range(9), repeat=2)) for plane in range(25, 76)}
            self.assertEqual(held.touching(axis, range(25, 76)), due)
            with unittest.mock.patch("extents.CELLS", 9_000):
                parts = [piece.extent for piece in pieces.pieces_of([found])]
            self.assertIn(51, {part.low[axis] for part in parts})

    def test_other_caves_of_the_same_box_are_left_out(self):
        for seed in range(20):
            rng, size = random.Random(seed), (12, 8, 12)
            cells, free = random_caves.rooms_of(rng, size)
            is_open = lambda at: at in free and all(1 <= place < side - 1 for place, side in zip(at, size))
            box = box_of(size, {at: AIR if is_open(at) else STONE for at in cells})
            box.corner = (100, 0, -50)
            parts = caves_apart([at for at in cells if is_open(at)])
            for part in parts:
                start = tuple(a + b for a, b in zip(min(part), box.corner))
                read, rows = matters.alone(box, Apart(), [start])
                self.assertEqual(set(cave_of(read, rows, 2, 1).dark), set(cave_of(box, [], 2, 1).dark) & part)


class Bounds(unittest.TestCase):
    def test_scattered_cells_share_no_torch(self):
        rng = random.Random(3)
        cells = [(rng.randrange(90), rng.randrange(9), rng.randrange(90)) for _ in range(400)]
        self.assertGreater(area_runs.scattered(cells), 8)
        self.assertEqual(area_runs.scattered([(0, 0, 0), (13, 0, 13)]), 1)  # a torch between them lights both
        self.assertEqual(area_runs.scattered([(0, 0, 0), (13, 1, 13)]), 2)

    def test_an_area_is_least_where_all_its_caves_are_whole_and_proved(self):
        whole, cut = Piece(Extent((0, 0, 0), (9, 9, 9)), [[1, 1, 1]], []), Piece(Extent((20, 0, 0), (29, 9, 9)), [], [])
        one = Result("", [[1, 1, 1, "floor"]], [], [[1, 1, 1]], None, [], [])
        self.assertTrue(area_runs.is_least([whole], [one]))
        self.assertFalse(area_runs.is_least([whole], [one._replace(at_least=1)]))
        self.assertFalse(area_runs.is_least([whole, cut], [one, one]))
        self.assertTrue(area_runs.is_least([whole, cut], [one, one._replace(torches=[], dark=[])]))
        self.assertEqual(area_runs.at_least([whole, cut], [one, one._replace(dark=[[20, 1, 1], [29, 9, 9]])]), 2)


class Runs(unittest.TestCase):
    def setUp(self):
        room = tempfile.TemporaryDirectory()
        self.addCleanup(room.cleanup)
        self.work, self.lines = os.path.join(room.name, "work"), []
        self.calls = os.path.join(room.name, "calls")
        self.whole = [Piece(extents.sized((40 * at, 0, 0), (9, 9, 9)), [[40 * at, 0, 0]], []) for at in range(4)]
        self.cut = [Piece(extents.sized((20 * at, 90, 0), (20, 9, 9)), [], []) for at in range(3)]

    def run_over(self, pieces, fails=(), jobs=1, key="key"):
        """The results of a run, and which pieces were planned with which torches beside them."""
        open(self.calls, "w").close()

        def plan_piece(piece, folder, of_whole, of_parts):
            there = " ".join(str([torch[0] for torch in torches]) for torches in (of_whole, of_parts))
            with open(self.calls, "a", encoding="utf-8") as file:
                file.write(f"{piece.extent.low[0]} {piece.extent.low[1]} {there}\n")
            if piece.extent.low in fails:
                raise Refusal("no torch")
            return Result(folder, [[*piece.extent.low, "floor"]], [["minecraft:air", {}]], [list(piece.extent.low)], None,
                          [], [])

        run = AreaRun(plan_piece, self.work, [key], self.lines.append)
        results = run.run(pieces, jobs)
        with open(self.calls, encoding="utf-8") as file:
            return results, run.failed, sorted(file.read().splitlines())

    def test_each_piece_once_by_one_job_and_by_several(self):
        for jobs in (1, 3):
            results, failed, calls = self.run_over(self.whole, jobs=jobs, key=jobs)
            self.assertEqual([result.torches for result in results],
                             [[[*piece.extent.low, "floor"]] for piece in self.whole])
            self.assertEqual((failed, len(calls)), ([], 4))

    def test_a_part_sees_the_torches_of_parts_before_it_that_are_near(self):
        _, _, calls = self.run_over(self.cut)
        self.assertEqual(calls, ["0 90 [] []", "20 90 [] [0]", "40 90 [] [20]"])

    def test_a_part_sees_the_torches_of_whole_caves_that_lie_in_it(self):
        whole = Piece(extents.sized((25, 93, 0), (5, 5, 5)), [[25, 93, 0]], [])
        _, _, calls = self.run_over([whole, *self.cut])
        self.assertEqual(calls, ["0 90 [25] []", "20 90 [25] [0]", "25 93 [] []", "40 90 [25] [20]"])

    def test_what_was_planned_is_kept_and_what_failed_is_named_and_tried_again(self):
        for jobs in (1, 3):
            self.lines.clear()
            results, failed, _ = self.run_over(self.whole, [(40, 0, 0)], jobs, key=jobs)
            self.assertEqual(failed, self.whole[1:2])
            self.assertEqual([result is None for result in results], [False, True, False, False])
            if jobs == 1:
                self.assertEqual(self.lines, ["--from 40 0 0 --to 48 8 8: no torch"])
            results, failed, calls = self.run_over(self.whole, jobs=jobs, key=jobs)
            self.assertEqual((failed, calls, None in results), ([], ["40 0 [] []"], False))

    def test_another_world_table_or_rule_begins_anew(self):
        self.run_over(self.whole)
        self.assertEqual(self.run_over(self.whole)[2], [])
        self.assertEqual(len(self.run_over(self.whole, key="another")[2]), 4)


if __name__ == "__main__":
    unittest.main()
