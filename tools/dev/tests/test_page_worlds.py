"""What the page that plans by itself reads of saved worlds, beside what tools/user reads of the same ones."""
import base64
import json
import os
import random
import tempfile
import unittest

import paths
import box_runs
import dimensions
import extents
import random_caves
import shells
import sources
import tables
import toml_rows
import worlds
from refusals import Refusal
from saved_worlds import V1_16, V1_17, V1_18, V1_21, Byte, Longs, Saved, chunk, nbt
from shipped import Apart
from structures import box_file
from test_planning_page import NODE, asked_page
from test_worlds import floor

STONE, AIR = ("minecraft:stone", {}), ("minecraft:air", {})
OVERWORLD = dimensions.OVERWORLD
WHOLE = ((0, 0, 0), (15, 15, 15))


def told_box(box):
    """A box as page_answers.mjs tells it."""
    return {"size": list(box.size), "cells": list(box.cells), "version": box.data_version, "corner": list(box.corner),
            "dimension": box.dimension, "name": box.name, "palette": [[name, props] for name, props in box.palette]}


def sentence(line):
    """A line of `light` as the page says it."""
    return f"{line[0].upper()}{line[1:]}."


@unittest.skipIf(NODE is None, "no node is here, so the page's scripts aren't run")
class PageWorlds(unittest.TestCase):
    maxDiff = 2000

    def setUp(self):
        self.room = tempfile.TemporaryDirectory()
        self.addCleanup(self.room.cleanup)
        self.asked = []

    def folder(self):
        """The folder of a world that isn't there yet."""
        return os.path.join(tempfile.mkdtemp(dir=self.room.name), "a world")

    def ask(self, saved, corners=WHOLE, dimension=OVERWORLD, headroom="2"):
        """Asks for a box of a world."""
        self.asked.append({"what": "world", "folder": saved.folder, "dimension": dimension, "corners": corners,
                           "rule": "1.18", "headroom": headroom})

    def by_light(self, ask):
        """What `light` reads of the box, or the line that it refuses it by."""
        extent = extents.between(*ask["corners"])
        try:
            world = worlds.World(ask["folder"], ask["dimension"])
            worlds.require_blocks(world, extent)
            cave = sources.read_world(world, extent, sources.name_of(world, extent))
        except Refusal as why:
            return str(why)
        rows = Apart(tables.vanilla_rows(tables.chosen(cave.box.data_version).data))
        read, made = shells.shelled(cave.box, cave.around, rows, int(ask["headroom"]))
        changed = [number for number, (one, other) in enumerate(zip(cave.box.cells, read.cells)) if one != other]
        return {"box": told_box(cave.box), "around": told_box(cave.around), "made": changed,
                "data": base64.b64encode(box_file(read)).decode(), "rows": "".join(map(toml_rows.text_of, made)),
                "notes": [box_runs.OTHER_LEVELS] * (world.dimension != OVERWORLD) + cave.notes}

    def compare(self):
        """Compares all that was asked; how many boxes were read, and how many refused."""
        read = refused = 0
        for ask, answer in zip(self.asked, asked_page(self.asked)):
            due = self.by_light(ask)
            if isinstance(due, str):
                refused += 1
                seen = [answer.get(name) for name in ("kind", "hasPlace", "fault")]
                self.assertEqual(seen, ["Refusal", True, sentence(due)])
                continue
            read += 1
            self.assertIn("answer", answer, answer)
            for part in due:
                self.assertEqual(answer["answer"][part], due[part] if part == "rows" else json.loads(
                    json.dumps(due[part])), part)
        return read, refused

    def filled(self, block, heights, places, version=V1_18, region="region", **how):
        saved = Saved(self.folder(), region, version)
        saved.fill(block, heights, places, version, **how)
        return saved

    def test_palettes_of_each_size_in_each_version(self):
        stones = many_of_table()
        for version in (V1_16, V1_18):
            for count in (1, 2, 16, 17, 256):
                self.ask(self.filled(stones(count), [1], [(0, 0)], version), ((0, 16, 0), (15, 31, 15)))
        self.assertEqual(self.compare(), (10, 0))

    def test_each_compression_in_the_region_and_outside(self):
        for packing in (1, 2, 3, 4):
            for is_outside in (False, True):
                saved = self.filled(floor, [0], [(3, 4)], packing=packing, is_outside=is_outside)
                self.ask(saved, ((48, 0, 64), (63, 15, 79)))
        self.assertEqual(self.compare(), (6, 2))

    def test_boxes_over_chunks_and_regions(self):
        places = [(x, z) for x in (-2, -1, 0) for z in (-1, 0)]
        saved = self.filled(floor, [-2, -1, 0], places)
        for one, other in [((-20, -20, -5), (6, 9, 3)), ((6, -20, 3), (-20, 9, -5)), ((0, 8, 0), (0, 8, 0))]:
            self.ask(saved, (one, other))
        saved = self.filled(floor, [0], [(31, 31), (32, 31), (-32, -33), (-33, -33)])
        self.ask(saved, ((511, 0, 496), (512, 15, 511)))
        self.ask(saved, ((-513, 0, -528), (-512, 15, -513)), headroom="1")
        self.assertEqual(self.compare(), (5, 0))

    def test_each_dimension_in_either_layout(self):
        for name, old in dimensions.FOLDERS.items():
            for where in (old, f"dimensions/minecraft/{name.split(':')[1]}/region"):
                self.ask(self.filled(floor, [0, 1], [(0, 0)], region=where), WHOLE, name)
        self.ask(self.filled(floor, [1, 2], [(0, 0)], region="dimensions/sky/up/region"),
                 ((0, 16, 0), (9, 30, 9)), "sky:up")
        self.assertEqual(self.compare(), (7, 0))

    def test_random_worlds_with_gaps(self):
        for seed in range(12):
            rng = random.Random(seed)
            cells, free = random_caves.rooms_of(rng, (48, 20, 48))
            states = {at: AIR if at in free else STONE for at in cells}
            for at in rng.sample(cells, 60):
                states[at] = rng.choice([*random_caves.RARE, *random_caves.GROUND, AIR])
            block = lambda x, y, z: states.get((x + 16, y, z + 16), STONE)
            places = [(x, z) for x in (-1, 0, 1) for z in (-1, 0, 1) if rng.random() < 0.85]
            saved = self.filled(block, [0, 1], places or [(0, 0)], rng.choice([V1_16, V1_18, V1_21]))
            corner = [rng.randrange(-10, 10) for _ in range(3)]
            other = [at + rng.randrange(1, 14) for at in corner]
            self.ask(saved, (corner, other), headroom=rng.choice("12"))
        read, refused = self.compare()
        self.assertGreater(read, 6)

    def test_chunks_that_are_missing_or_damaged(self):
        whole = chunk(0, 0, floor, [0])
        changes = {
            "empty": b"", "cut": whole[:-30], "old": chunk(0, 0, floor, [0], 2_000), "moved": chunk(0, 0, floor, [0], at=(1, 0)),
            "raw": chunk(0, 0, floor, [0], status="empty"), "text": nbt({"DataVersion": V1_18, "xPos": "0"}),
            "few": nbt({"DataVersion": V1_18, "xPos": 0, "zPos": 0, "Status": "full", "sections": [
                {"Y": Byte(0), "block_states": {"palette": [{"Name": "minecraft:stone"}, {"Name": "minecraft:air"}],
                                                "data": Longs([1, 2])}}]}),
            "none": nbt({"DataVersion": V1_18, "xPos": 0, "zPos": 0, "Status": "full", "sections": [
                {"Y": Byte(0), "block_states": {}}]}),
            "beyond": nbt({"DataVersion": V1_18, "xPos": 0, "zPos": 0, "Status": "full", "sections": [
                {"Y": Byte(0), "block_states": {"palette": [{"Name": "minecraft:stone"}, {"Name": "minecraft:air"}],
                                                "data": Longs([2] + [0] * 255)}}]}),
            "nowhere": nbt({"DataVersion": V1_18, "xPos": 0, "zPos": 0, "Status": "full", "sections": [{"Y": "0"}]}),
        }
        for data in changes.values():
            saved = Saved(self.folder())
            saved.put(0, 0, data, packing=3)
            saved.write()
            self.ask(saved)
        saved = self.filled(floor, [0], [(0, 0)])
        self.ask(saved, ((16, 0, 0), (40, 15, 15)))
        self.ask(saved, ((0, 400, 0), (9, 409, 9)))
        self.ask(saved, ((8, 0, 8), (24, 15, 24)))
        for size in (0, 100, 8_192, 8_300):
            saved = self.filled(floor, [0], [(0, 0)])
            with open(saved.path(0, 0), "r+b") as file:
                file.truncate(size)
            self.ask(saved)
        for place in (b"\0\0\1\1", b"\0\xff\0\1", b"\0\0\2\0"):
            saved = self.filled(floor, [0], [(0, 0)])
            with open(saved.path(0, 0), "r+b") as file:
                file.write(place)
            self.ask(saved)
        saved = self.filled(floor, [0], [(0, 0)], is_outside=True)
        os.remove(os.path.join(saved.region, "c.0.0.mcc"))
        self.ask(saved)
        self.assertEqual(self.compare(), (1, 20))

    def test_without_level_dat_the_newest_chunk_tells_the_version(self):
        saved = Saved(self.folder(), version=None)
        saved.put(0, 0, chunk(0, 0, floor, [0], V1_17))
        saved.put(1, 0, chunk(1, 0, floor, [0], V1_21))
        saved.write()
        self.ask(saved, ((0, 0, 0), (9, 9, 9)))
        self.ask(saved, ((9, 0, 0), (20, 9, 9)))
        self.assertEqual(self.compare(), (2, 0))

    def test_the_box_that_is_proposed_is_the_one_about_the_player(self):
        asked, due = [], []
        places = [(x, z) for x in range(-2, 3) for z in range(-3, 2)]
        for at in ([5.5, 20.0, 3.2], [-0.1, -60.0, -40.9], [30.0, 310.0, 8.0]):
            for kept in (places, places[::2]):
                there = [*kept, (int(at[0] // 16), int(at[2] // 16))]
                saved = Saved(self.folder(), player={"Pos": at})
                saved.fill(floor, [0], there)
                asked.append({"what": "look", "folder": saved.folder})
                world = worlds.World(saved.folder)
                due.append(worlds.extent_around(world, world.level.player[0]))
        for answer, extent in zip(asked_page(asked), due):
            seen = answer["answer"]
            self.assertEqual((seen["name"], seen["names"], seen["dimension"]), ("a world", [OVERWORLD], OVERWORLD))
            self.assertEqual(seen["extent"], {"low": list(extent.low), "high": list(extent.high)})

    def test_the_box_that_is_proposed_without_a_player_is_in_the_middle_of_the_chunks(self):
        saved = Saved(self.folder(), version=None)
        saved.put(7, 7, chunk(7, 7, floor, [0], status="empty"))
        saved.fill(floor, [0, 1, 2], [(6, 7), (8, 8)])
        nobody = Saved(self.folder(), player={"Pos": [900.0, 60.0, 900.0]})
        nobody.fill(floor, [0], [(0, 0)])
        asked = [{"what": "look", "folder": one.folder} for one in (saved, nobody)]
        seen = [answer["answer"]["extent"] for answer in asked_page(asked)]
        self.assertEqual(seen, [{"low": [96, 16, 112], "high": [111, 55, 127]},
                                {"low": [0, 16, 0], "high": [15, 55, 15]}])

    def test_the_dimension_that_is_shown_is_the_players(self):
        saved = Saved(self.folder(), player={"Pos": [1.0, 9.0, 1.0], "Dimension": "minecraft:the_nether"})
        saved.fill(floor, [0], [(0, 0)])
        inner = Saved(saved.folder, "DIM-1/region", player={"Pos": [1.0, 9.0, 1.0], "Dimension": "minecraft:the_nether"})
        inner.fill(floor, [0], [(0, 0)])
        first, told = asked_page([{"what": "look", "folder": saved.folder},
                                  {"what": "look", "folder": saved.folder, "dimension": OVERWORLD}])
        self.assertEqual(first["answer"]["dimension"], dimensions.NETHER)
        self.assertEqual(sorted(first["answer"]["names"]), sorted([OVERWORLD, dimensions.NETHER]))
        self.assertEqual(told["answer"]["dimension"], OVERWORLD)

    def test_worlds_among_files(self):
        """Which world is among paths: its name and its dimensions, or why there is none."""
        many_worlds = ["saves/A/level.dat", "saves/A/region/r.0.0.mca", "saves/B/level.dat"]
        found = [
            (["r.0.0.mca"], ("world", [OVERWORLD])),
            (["region/r.0.0.mca", "region/c.1.1.mcc"], ("world", [OVERWORLD])),
            (["W/level.dat", "W/region/r.0.0.mca", "W/DIM1/region/r.0.0.mca"], ("W", [OVERWORLD, dimensions.END])),
            (["saves/W/level.dat", "saves/W/region/r.0.0.mca"], ("W", [OVERWORLD])),
            (["W/region/r.0.0.mca", "W/entities/r.0.0.mca", "W/poi/r.1.0.mca"], ("W", [OVERWORLD])),
            (["DIM-1/region/r.0.0.mca"], ("world", [dimensions.NETHER])),
            (["W/level.dat", "W/dimensions/a/b/c/region/r.0.0.mca"], ("W", ["a:b/c"])),
            (many_worlds, "There are 2 worlds here (A, B). Choose one of them."),
            (["W/level.dat", "W/region/x.mca"], "There are no region files here."),
            (["W/level.dat", "W/poi/r.0.0.mca"], "There are no region files here."),
            ([], "There are no region files here."),
        ]
        for (told, due), answer in zip(found, asked_page([{"what": "look", "paths": told} for told, _ in found])):
            if isinstance(due, str):
                self.assertTrue(answer["fault"].startswith(due), (told, answer))
                continue
            self.assertIn("answer", answer, (told, answer))
            self.assertEqual((answer["answer"]["name"], answer["answer"]["names"]), due)

    def test_what_the_page_leaves_to_light(self):
        saved = self.filled(floor, [0], [(0, 0)])
        nether = self.filled(floor, [0], [(0, 0)], region="DIM-1/region")
        large, other = asked_page([
            {"what": "world", "folder": saved.folder, "dimension": None, "corners": [[0, 0, 0], [126, 5, 5]]},
            {"what": "world", "folder": nether.folder, "dimension": None, "corners": WHOLE, "rule": None}])
        self.assertIn("The box has 127 x 6 x 6 cells. A page plans boxes with sides up to 126", large["fault"])
        self.assertIn("Choose under Options", other["fault"])


def many_of_table():
    """Blocks of a table, as many as are asked for."""
    names = [row.name.decode() for row in tables.vanilla_rows(tables.chosen(V1_18).data) if not row.when]
    names = list(dict.fromkeys(name for name in names if name != "*"))

    def blocks(count):
        return lambda x, y, z: (names[(x % 16 + 16 * (z % 16) + 256 * (y % 16)) % count],
                                {"at": str(x % 3)} if x % 5 == 0 and count < 200 else {})

    return blocks


if __name__ == "__main__":
    unittest.main()
