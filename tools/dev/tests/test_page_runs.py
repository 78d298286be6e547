"""Whole runs of the page that plans by itself, beside those of `light`: of the same file both make the same files, byte
for byte, and what is packed after it is unpacked. Both take the programs that lie in dist/; nothing is built."""
import base64
import gzip
import os
import random
import re
import subprocess
import sys
import tempfile
import unittest

import paths
from made_schematics import litematic_file, sponge_file
from packed_program import unpacked
from saved_worlds import V1_16, V1_18, V1_21, Saved
from test_planning_page import NODE, asked_page, example, opened, read, text_of_bytes

import caves
from repository import TOOLS, TOP
from structure_files import read_structure

PAGE = os.path.join(TOP, "dist", "torchplan.html")
LIGHT = os.path.join(TOOLS, "user", "light")
PACKED = re.compile(rb'<script id="program" type="text/plain">([^<]*)</script>')
TOLD = {"rule": None, "headroom": "2", "table": None, "isSteady": False, "turns": None, "isToTheEnd": False}
OWN = '[[row]]\nname = "minecraft:stone"\nopacity = 15\nstand = true\nside = true\n'
FELT = '[[row]]\nname = "minecraft:stone"\nopacity = 15\nstand = true\n'  # no torch holds on it
MADE_BY = re.compile(r"\n\nMade by: .*\n")
TABLE = re.compile(r"\ntable\.toml .*")


def readme(data):
    """README.txt without what the page tells otherwise: it has no command line, and keeps each table."""
    return TABLE.sub("", MADE_BY.sub("\nMade with ", data.decode()))


@unittest.skipIf(NODE is None, "no node is here, so the page's scripts aren't run")
class Runs(unittest.TestCase):
    maxDiff = 2000

    def setUp(self):
        self.room = tempfile.TemporaryDirectory()
        self.addCleanup(self.room.cleanup)
        self.program, self.wasm = unpacked(self.room.name), os.path.join(self.room.name, "torchplan.wasm")
        with open(self.wasm, "wb") as file:
            file.write(gzip.decompress(base64.b64decode(PACKED.search(read(PAGE))[1])))
        version = subprocess.run([self.program, "--version"], stdout=subprocess.PIPE, text=True).stdout
        self.version = version.split()[1]

    def by_light(self, *words):
        """The files that `light` makes, by their names."""
        into = tempfile.mkdtemp(dir=self.room.name)
        ran = subprocess.run([sys.executable, LIGHT, *words, "--into", into], stdout=subprocess.PIPE,
                             stderr=subprocess.PIPE, text=True, env={**os.environ, "TORCHPLAN": self.program})
        self.assertIn(ran.returncode, (0, 5), ran.stderr)
        folder, = [os.path.join(into, name) for name in os.listdir(into)]
        return {name: read(os.path.join(folder, name)) for name in os.listdir(folder)}

    def compare(self, asked):
        """Compares runs: the file's name and its bytes, what the page is told, and the words for `light`."""
        questions = [{"what": "plan", "file": file, "bytes": text_of_bytes(data), "told": {**TOLD, **told}}
                     for file, data, told, _ in asked]
        for (file, data, told, words), answer in zip(asked, asked_page(questions, self.wasm, self.version)):
            self.assertIn("answer", answer, f"{file}: {answer}")
            seen = {name: base64.b64decode(text) for name, text in answer["answer"].items()}
            path = os.path.join(self.room.name, file)
            with open(path, "wb") as out:
                out.write(data)
            self.compare_files(file, seen, self.by_light(path, *words))

    def compare_files(self, what, seen, due):
        """Compares the page's files with light's, which has no table where it is a vanilla one."""
        self.assertEqual(set(seen) - {"table.toml"}, set(due) - {"table.toml"}, what)
        for name in set(due) - {"README.txt"}:
            self.assertEqual(opened(name, seen[name]), opened(name, due[name]), f"{what}: {name}")
        self.assertEqual(readme(seen["README.txt"]), readme(due["README.txt"]), what)

    def compare_examples(self, rule):
        names = ("corridor", "hall", "mine", "slab-floor", "slab-proofed", "two-levels")
        self.compare([(f"{name}.nbt", read(example(f"{name}.nbt")), {"rule": rule}, ["--rule", rule])
                      for name in names])

    def test_the_examples_under_the_rule_of_1_18(self):
        self.compare_examples("1.18")

    def test_the_examples_under_the_rule_before_1_18(self):
        self.compare_examples("1.17")

    def test_packed_files_and_schematics(self):
        data = read(example("mine.nbt"))
        box = read_structure(data, "mine")
        cells = [max(0, cell) for cell in box.cells]
        region = {"all": ((0, 0, 0), box.size, box.palette, cells)}
        found = {
            "My Mine.nbt": gzip.compress(data),
            "mine.litematic": gzip.compress(litematic_file(random.Random(1), region)),
            "mine.schem": gzip.compress(sponge_file(2, box.size, box.palette, cells)),
            "newer.schem": gzip.compress(sponge_file(3, box.size, box.palette, cells)),
        }
        self.compare([(file, data, {}, []) for file, data in found.items()])

    def test_options_and_a_search_that_is_stopped(self):
        table = os.path.join(self.room.name, "mine.toml")
        with open(table, "w", encoding="utf-8") as file:
            file.write(OWN)
        mine = read(example("mine.nbt"))
        hall = caves.structure((26, 5, 26), lambda x, y, z: int(0 < x < 25 > z > 0 and 0 < y < 4))
        self.compare([
            ("mine.nbt", mine, {"headroom": "1", "isSteady": True}, ["--headroom", "1", "--steady"]),
            ("mine.nbt", mine, {"table": {"name": "mine.toml", "text": OWN}}, ["--table", table]),
            ("hall.nbt", hall, {"rule": "1.17", "turns": 2}, ["--rule", "1.17", "--turns", "2"]),
            ("full.nbt", caves.structure((3, 3, 3), lambda x, y, z: 0), {}, []),
        ])

    def test_blocks_that_no_table_has_are_named_at_once(self):
        strange = caves.structure((5, 4, 5), lambda x, y, z: (x + y) % 3, ["cave:a", "minecraft:air", "cave:b"])
        ask = {"what": "plan", "file": "x.nbt", "bytes": text_of_bytes(strange), "told": TOLD}
        answer, = asked_page([ask], self.wasm)
        self.assertIn("No table has 2 blocks of the cave: cave:a, cave:b.", answer["fault"])
        self.assertIn('name = "cave:b"', answer["more"])

    def test_cells_that_no_torch_can_light_get_slabs(self):
        table = os.path.join(self.room.name, "felt.toml")
        with open(table, "w", encoding="utf-8") as file:
            file.write(FELT)
        felt = caves.structure((5, 5, 5), lambda x, y, z: int(0 < x < 4 > z > 0 and 0 < y < 4))
        # torches hold on glass alone, beside part of the floor
        state_of = lambda x, y, z: 2 if x == 0 else int(0 < x < 29 and 0 < z < 4 and 0 < y < 4)
        part = caves.structure((30, 5, 5), state_of, ["minecraft:stone", "minecraft:air", "minecraft:glass"])
        told = {"table": {"name": "felt.toml", "text": FELT}}
        words = ["--table", table]
        self.compare([("felt.nbt", felt, told, words), ("part.nbt", part, told, words),
                      ("low.nbt", part, {**told, "rule": "1.17"}, [*words, "--rule", "1.17"])])
        into = self.by_light(os.path.join(self.room.name, "part.nbt"), *words)
        self.assertIn("put a slab there", into["README.txt"].decode())
        self.assertNotIn("torches 0", into["plan.txt"].decode())

    def test_boxes_of_worlds(self):
        asked = [((2, 11, 3), (26, 17, 22), {}, "region", V1_21), ((9, 12, 9), (9, 13, 30), {}, "region", V1_16),
                 ((-20, 10, -3), (12, 40, 9), {"headroom": "1"}, "region", V1_18),
                 ((2, 11, 3), (14, 17, 12), {"rule": "1.17"}, "DIM-1/region", V1_18)]
        questions, words = [], []
        for number, (low, high, told, region, version) in enumerate(asked):
            folder = os.path.join(tempfile.mkdtemp(dir=self.room.name), f"my world {number}")
            Saved(folder, region, version).fill(rooms, [0, 1], [(x, z) for x in (-1, 0, 1) for z in (0, 1)], version)
            questions.append({"what": "planWorld", "folder": folder, "dimension": None, "corners": [low, high],
                              "told": {**TOLD, **told}})
            dimension = ["--dimension", "nether"] if region != "region" else []
            more = [word for name, value in told.items() for word in (f"--{name}", value)]
            words.append(["--world", folder, "--from", *map(str, low), "--to", *map(str, high), *dimension, *more])
        for asked, answer in zip(words, asked_page(questions, self.wasm, self.version)):
            self.assertIn("answer", answer, f"{asked}: {answer}")
            seen = {name: base64.b64decode(text) for name, text in answer["answer"].items()}
            due = self.by_light(*asked)
            self.assertIn("table.toml", due)
            self.compare_files(asked, seen, due)


def rooms(x, y, z):
    """Rooms of 9 x 4 x 9 with doors within stone, some of them lit, some of them with water."""
    is_inside = y in range(12, 16) and (x % 10 and z % 10 or (x % 10 == 5 or z % 10 == 5) and y < 14)
    if not is_inside:
        return "minecraft:stone", {}
    if (x % 20, y, z % 20) == (3, 12, 3):
        return "minecraft:lantern", {"hanging": "false"}
    return ("minecraft:water", {"level": "0"}) if (x % 30, y) == (21, 12) else ("minecraft:air", {})


if __name__ == "__main__":
    unittest.main()
