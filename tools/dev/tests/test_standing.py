"""Torches that stand already, where a plan is made as if they didn't."""
import argparse
import tempfile
import unittest

from made import AIR, STONE, floor_box, plan_of
import box_runs
import outputs
import packs
import page
import planning
import sources
import standing
import worlds
from extents import Extent
from plans import Torch
from saved_worlds import V1_21, Saved
from shipped import Apart
from test_packs import function, read_zip

TORCH, WALL = ("minecraft:torch", {}), ("minecraft:wall_torch", {"facing": "east"})


class Standing(unittest.TestCase):
    def test_torches_are_found_but_in_the_shell(self):
        box = floor_box([TORCH, AIR, WALL, ("minecraft:soul_torch", {})])
        self.assertEqual(standing.torches_of(box, 0), [(0, 1, 0), (2, 1, 0)])
        self.assertEqual(standing.torches_of(box, 1), [])

    def test_air_stands_in_their_place(self):
        box = floor_box([TORCH, STONE])
        self.assertEqual(standing.without(box, [(0, 1, 0)]).state_at(0, 1, 0), AIR)
        self.assertEqual(box.state_at(0, 1, 0), TORCH)

    def test_what_stands_as_it_is_planned_stays(self):
        box = floor_box([TORCH, WALL, TORCH, AIR])
        torches = [Torch(0, 1, 0, "floor"), Torch(1, 1, 0, "floor"), Torch(3, 1, 0, "floor")]
        away, placed = standing.compared(box, standing.torches_of(box, 0), torches)
        self.assertEqual((away, placed), ([(1, 1, 0), (2, 1, 0)], torches[1:]))


class Moved(unittest.TestCase):
    def test_light_of_torches_that_may_go_does_not_come_back_from_beside_the_box(self):
        # a corridor along x with torches at 4 and at 9, of which the second lies in the box
        lights = {(4, 5, 8): TORCH, (9, 5, 8): TORCH}
        block = lambda *at: lights.get(at) or (AIR if at[1] in (5, 6) and at[2] == 8 and 0 < at[0] < 15 else STONE)
        with tempfile.TemporaryDirectory() as folder:
            Saved(folder, version=V1_21).fill(block, [0], [(0, 0)], V1_21)
            cave = sources.read_world(worlds.World(folder), Extent((8, 4, 7), (14, 8, 9)), "x")
        for move, level in ((False, 12), (True, 11)):
            told = argparse.Namespace(move=move, only=[], barred=[], reachable=False, headroom="2")
            layout = box_runs.layout_of(cave, planning.Terms(told, None, Apart(), "1.18"), box_runs.Context())
            name, _ = layout.read.state_at(0, 2, 2)  # the shell's cell at 7 5 8
            self.assertEqual(next(row.emission for row in layout.rows if row.name == name.encode()), level)
            self.assertEqual(layout.read.state_at(2, 2, 2), AIR if move else TORCH)


class Told(unittest.TestCase):
    box = floor_box([TORCH, AIR, WALL], corner=(5, 6, 7), dimension="minecraft:overworld", name="x")
    plan, away = plan_of([(1, 1, 0, "floor")]), [(0, 1, 0), (2, 1, 0)]

    def test_the_pack_takes_them_away_and_puts_them_back(self):
        files = read_zip(packs.pack(self.box, self.plan, self.away))
        run = "execute in minecraft:overworld if block {} run setblock {}"
        self.assertEqual(function(files, "place", cave="x"), [
            run.format("5 7 7 minecraft:torch", "5 7 7 minecraft:air"),
            run.format("7 7 7 minecraft:wall_torch[facing=east]", "7 7 7 minecraft:air"),
            "execute in minecraft:overworld run setblock 6 7 7 minecraft:torch"])
        self.assertEqual(function(files, "undo", cave="x"), [
            run.format("6 7 7 minecraft:torch", "6 7 7 minecraft:air"),
            run.format("5 7 7 minecraft:air", "5 7 7 minecraft:torch"),
            run.format("7 7 7 minecraft:air", "7 7 7 minecraft:wall_torch[facing=east]")])

    def test_readme_and_page_tell_them(self):
        lines = list(outputs.readme(self.box, self.plan, "accepted 2", {"total": 2, "away": self.away}, []))
        self.assertEqual(lines[0], "Torches for x: 2 torches, and no fewer do (check: accepted 2).")
        self.assertIn("Take away 2 that stand there, place 1:", lines)
        self.assertIn("  take away 5 7 7", lines)
        data = page.data_of(self.box, self.plan, [], bytes(len(self.box.cells)), None, away=self.away, total=2)
        self.assertEqual((data["away"], data["total"]), (self.away, 2))


if __name__ == "__main__":
    unittest.main()
