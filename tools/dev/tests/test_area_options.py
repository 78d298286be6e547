"""Areas in which one walks, and in which torches stand already: worlds that are made, and the program of dist/. A box has
but few cells, so that small areas are cut."""
import contextlib
import io
import os
import re
import tempfile
import unittest
import unittest.mock

import paths
import made_worlds
import plans
from meaning import Cave
from packed_program import unpacked
from shipped import class_of
from test_light import LIGHT
from test_packs import function, read_zip

AIR, GLASS, TORCH, LANTERN = "minecraft:air", "minecraft:glass", "minecraft:torch", "minecraft:lantern"
ONE_BOX = 262_144


def block(x, y, z, name=AIR):
    """The cells of a box, told by the first and the last of each of its coordinates."""
    return {(a, b, c): name for a in range(x[0], x[1] + 1) for b in range(y[0], y[1] + 1)
            for c in range(z[0], z[1] + 1)}


def coordinates(text):
    return tuple(map(int, text.split()))


class Run:
    """What `light` says and makes of an area or a box.

    torches   those of plan.txt, by the world's coordinates
    placed    where the pack places some, and away where it takes some away"""

    def __init__(self, folder, said):
        name, = os.listdir(folder)
        self.out, self.err = said
        self.place = os.path.join(folder, name)
        text = self.text("plan.txt")
        corner = coordinates(re.search(r"^corner (\S+ \S+ \S+) in ", text, re.MULTILINE)[1])
        self.torches = [tuple(a + b for a, b in zip(torch, corner)) for torch in plans.read_plan(text).torches]
        pack, = [name for name in os.listdir(self.place) if name.endswith(".zip")]
        with open(os.path.join(self.place, pack), "rb") as file:
            lines = function(read_zip(file.read()), "place", cave=pack[: -len("-torches.zip")])
        self.away = [coordinates(line.split(" setblock ")[1].rsplit(" ", 1)[0]) for line in lines if "if block" in line]
        self.placed = [coordinates(line.split(" setblock ")[1].rsplit(" ", 1)[0]) for line in lines
                       if "if block" not in line]

    def text(self, name):
        with open(os.path.join(self.place, name), encoding="utf-8") as file:
            return file.read()


class Areas(unittest.TestCase):
    @classmethod
    def setUpClass(cls):
        room = tempfile.TemporaryDirectory()
        cls.addClassCleanup(room.cleanup)
        planned = unittest.mock.patch.dict(os.environ, {"TORCHPLAN": unpacked(room.name)})
        planned.start()
        cls.addClassCleanup(planned.stop)

    def setUp(self):
        self.room = tempfile.TemporaryDirectory()
        self.addCleanup(self.room.cleanup)

    def make(self, cells):
        """Makes a world of stone but for these cells."""
        self.cells, self.world = cells, os.path.join(self.room.name, "w")
        made_worlds.write_world(self.world, cells, [(x, z) for x in range(-2, 7) for z in range(-2, 4)], [-1, 0, 1])

    def run_light(self, limit, low, high, *words, status=(0, 5)):
        """A run over the extent where a box has at most `limit` cells."""
        said, folder = [io.StringIO(), io.StringIO()], tempfile.mkdtemp(dir=self.room.name)
        given = ["--world", self.world, "--from", *low, "--to", *high, "--into", folder, *words]
        with contextlib.redirect_stdout(said[0]), contextlib.redirect_stderr(said[1]):
            with unittest.mock.patch("extents.CELLS", limit):
                ended = LIGHT.main(list(map(str, given)))
        said = [one.getvalue() for one in said]
        self.assertIn(ended, status, said)
        return Run(folder, said) if ended in (0, 5) else said[1]

    def dark(self, torches, away=()):
        """Where it is dark in the world with torches, and without those that are taken away, by a calculation apart."""
        cells = {**self.cells, **dict.fromkeys(away, AIR), **dict.fromkeys(torches, TORCH)}
        size = tuple(max(places) + 2 for places in zip(*cells))
        stone = class_of([], (made_worlds.STONE, {}))
        classes = {(x, y, z): stone for x in range(size[0]) for y in range(size[1]) for z in range(size[2])}
        classes.update((at, class_of([], (name, {}))) for at, name in cells.items())
        return Cave(size, classes, 2, 1).dark


class OnFoot(Areas):
    # a room with a window to a second one, and two that nothing leads to
    ROOMS = {**block((2, 12), (2, 4), (2, 10)), **block((13, 13), (2, 4), (2, 10), GLASS),
             **block((14, 24), (2, 4), (2, 10)), **block((30, 44), (2, 4), (2, 12)), **block((48, 58), (2, 4), (3, 12))}
    EXTENT = (1, 1, 1), (59, 6, 14)

    def test_closed_caves_have_the_number_of_one_box(self):
        self.make(self.ROOMS)
        for words in (["--walk", 3, 2, 3, "--reachable"], ["--walk", 15, 2, 3, "--reachable"]):
            box = self.run_light(ONE_BOX, *self.EXTENT, *words)
            for more in ([], ["--jobs", 2]):
                area = self.run_light(1_500, *self.EXTENT, *words, *more)
                self.assertIn("3 caves lie apart, in 3 pieces to plan", area.err)
                self.assertEqual(len(area.torches), len(box.torches))
                is_near = lambda at: at[0] < 13 if words[1] == 3 else 13 < at[0] < 25
                self.assertEqual(list(filter(is_near, self.dark(area.torches))), [])

    def test_torches_where_nobody_gets_to_are_listed_apart(self):
        self.make(self.ROOMS)
        plain = self.run_light(1_500, *self.EXTENT)
        area = self.run_light(1_500, *self.EXTENT, "--walk", 3, 2, 3)
        self.assertEqual(sorted(area.torches), sorted(plain.torches))
        line = r"(\d+) torches light only cells where nobody gets to on foot, last in the list"
        told = int(re.search(line, area.err)[1])
        others, apart = area.torches[:-told], area.torches[-told:]
        self.assertTrue(all(at[0] > 13 for at in apart))
        self.assertEqual([at for at in self.dark(others) if at[0] < 13], [])
        self.assertLessEqual({at for at in plain.torches if at[0] > 25}, set(apart))
        self.assertEqual(area.placed, area.torches)
        for name in ("README.txt", "index.html"):
            self.assertIn(f"{told} torches light only cells where nobody gets to on foot", area.text(name))
        by_piece = re.findall(r"</a>: .*, (\d+) only where nobody gets to</li>", area.text("index.html"))
        self.assertEqual(sum(map(int, by_piece)), told)

    def test_a_way_that_leads_from_one_part_into_another_and_back(self):
        # two chambers in the west, joined by a way through the east; a third one is seen through a window
        self.make({**block((2, 8), (2, 3), (2, 6)), **block((9, 56), (2, 3), (4, 4)), **block((56, 56), (2, 3), (5, 14)),
                   **block((9, 55), (2, 3), (14, 14)), **block((2, 8), (2, 3), (12, 16)),
                   **block((2, 8), (2, 3), (17, 17), GLASS), **block((2, 8), (2, 3), (18, 40))})
        area = self.run_light(3_000, (1, 1, 1), (58, 4, 42), "--walk", 3, 2, 3, "--reachable")
        self.assertRegex(area.err, r"1 cave lies apart, in [2-9] pieces to plan, [2-9] of them parts")
        left = self.dark(area.torches)
        self.assertEqual([at for at in left if at[2] < 17], [])
        self.assertGreater(len(left), 0)
        self.assertTrue(any(at[0] < 9 and at[2] > 11 for at in area.torches))

    def test_torches_of_a_part_that_others_are_planned_by_are_not_listed_apart(self):
        # one walks in the east alone, and the cut lies at the window, through which a torch of the west shines
        self.make({**block((2, 63), (2, 3), (3, 3)), **block((32, 32), (2, 3), (3, 3), GLASS)})
        area = self.run_light(500, (1, 1, 1), (64, 4, 5), "--walk", 60, 2, 3)
        self.assertEqual([at[0] > 32 for at in sorted(area.torches)], [False, False, True])
        told = int(re.search(r"(\d+) torch(es)? lights? only cells where nobody", area.err)[1])
        self.assertEqual([at for at in self.dark(area.torches[:-told]) if at[0] > 32], [])
        self.assertEqual(self.dark(area.torches), [])

    def test_nobody_stands_there(self):
        self.make(self.ROOMS)
        err = self.run_light(1_500, *self.EXTENT, "--walk", 3, 12, 3, status=[1])
        self.assertEqual(err, "light: nobody can stand at 3 12 3: name another place by --walk X Y Z\n")


class Moved(Areas):
    def test_torches_of_parts_that_light_each_other(self):
        # a corridor that is cut, with torches on both sides of where that is, one that stands outside of the area, and
        # one in a hole in which nobody spawns
        corridor = {**block((2, 70), (2, 3), (2, 4)), **block((20, 22), (2, 2), (8, 8))}
        stand = [(x, 2, 3) for x in (10, 26, 28, 31, 33, 50)] + [(21, 2, 8)]
        self.make({**corridor, **dict.fromkeys([*stand, (60, 2, 3)], TORCH)})
        for more in ([], ["--jobs", 2]):
            area = self.run_light(900, (1, 1, 1), (57, 5, 9), "--move", *more)
            self.assertIn(" of them parts of caves that are cut", area.err)
            self.assertEqual(area.away.count((21, 2, 8)), 1)
            kept = set(stand) - set(area.away)
            self.assertEqual((set(area.away) | kept, kept & set(area.placed)), (set(stand), set()))
            self.assertEqual(set(area.torches), set(area.placed) | kept)
            self.assertEqual([at for at in self.dark(area.placed, area.away) if at[0] < 58], [])
            told = f"take away {len(area.away)}, place {len(area.placed)}"
            self.assertIn(f"\n{told}\ncarry {len(area.placed)} torch", area.out)
            self.assertIn(f"<li>{told}</li>", area.text("index.html"))
            self.assertIn("<h2>Take away beside the pieces</h2>\n<ul><li>21 2 8</li></ul>", area.text("index.html"))
            readme = area.text("README.txt")
            self.assertIn(f"Take away {len(area.away)} that stand there, place {len(area.placed)}:\n  take away ", readme)
            self.assertEqual(len(re.findall(r"^  take away ", readme, re.MULTILINE)), len(area.away))

    def test_torches_that_stand_where_they_are_planned_stay(self):
        # a corridor that is cut, and a room
        cells, extent = {**block((2, 56), (2, 3), (2, 4)), **block((20, 30), (2, 3), (10, 16))}, ((1, 1, 1), (57, 5, 18))
        self.make(cells)
        plain = self.run_light(900, *extent)
        stand = {at for at in plain.torches if at[2] > 9} | {at for at in plain.torches if at[0] < 30 or at[0] > 50}
        self.assertEqual((len(plain.placed) - len(stand) > 0, len(stand) > 2), (True, True))
        self.make({**cells, **dict.fromkeys([*stand, (40, 2, 2)], TORCH)})
        area = self.run_light(900, *extent, "--move")
        self.assertEqual((area.torches, area.away), (plain.torches, [(40, 2, 2)]))
        self.assertEqual(set(area.placed), set(plain.torches) - stand)

    def test_closed_caves_change_by_as_many_as_in_one_box(self):
        # the first room is dark in part; in the second a lantern lights all, and a torch beyond the area in the third
        rooms = {**block((2, 14), (2, 4), (2, 10)), **block((30, 36), (2, 4), (2, 8)), **block((54, 62), (2, 4), (3, 8))}
        torches = [(3, 2, 3), (4, 2, 3), (13, 2, 9), (31, 2, 3), (35, 2, 7), (55, 2, 3)]
        self.make({**rooms, **dict.fromkeys([*torches, (61, 2, 5)], TORCH), (33, 4, 5): LANTERN})
        extent = (1, 1, 1), (59, 6, 14)
        box, area = (self.run_light(limit, *extent, "--move") for limit in (ONE_BOX, 1_400))
        change = lambda run: len(run.placed) - len(run.away)
        self.assertEqual((len(area.torches), change(area)), (len(box.torches), change(box)))
        self.assertLessEqual({(31, 2, 3), (35, 2, 7), (55, 2, 3)}, set(area.away))
        self.assertEqual(self.dark(area.placed, area.away), [])
        self.assertIn(": 0 torches, 0 dark cells, take away 2</li>", area.text("index.html"))


if __name__ == "__main__":
    unittest.main()
