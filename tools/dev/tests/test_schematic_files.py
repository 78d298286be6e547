"""Schematics of Litematica and of Sponge, written by the tests' own writer, and other files, named for what they are."""
import gzip
import os
import random
import tempfile
import unittest

import paths
import sources
from boxes import Box
from refusals import Refusal
from saved_worlds import V1_21, Longs, Short, nbt

STATES = [("minecraft:air", {}), ("minecraft:stone", {}), ("minecraft:oak_stairs", {"facing": "north", "half": "top"}),
          *((f"minecraft:b{number}", {"at": str(number)}) for number in range(300))]


def crossing(indices, bits):
    """Numbers in longs, one behind the other without a gap (Litematica's bit array)."""
    whole = sum(index << bits * at for at, index in enumerate(indices))
    count = -(-bits * len(indices) // 64)
    return Longs(whole >> 64 * at & 2**64 - 1 for at in range(count))


def vector(numbers):
    return dict(zip("xyz", numbers))


def region(at, size, states, palette):
    bits = max(2, (len(palette) - 1).bit_length())
    entries = [{"Name": name, **({"Properties": props} if props else {})} for name, props in palette]
    return {"Position": vector(at), "Size": vector(size), "BlockStatePalette": entries, "Entities": [{"id": "x"}],
            "BlockStates": crossing([palette.index(state) for state in states], bits)}


def litematic(regions, **more):
    return gzip.compress(nbt({"MinecraftDataVersion": V1_21, "Version": 6, "Regions": regions, **more}))


def text_of(state):
    name, props = state
    return name + (f"[{','.join('='.join(pair) for pair in props.items())}]" if props else "")


def varint(number):
    return bytes([number]) if number < 128 else bytes([number & 127 | 128]) + varint(number >> 7)


def sponge(version, size, states, palette, numbers=None):
    """A schematic of Sponge; `numbers` are those of the palette's states."""
    numbers = numbers or range(len(palette))
    names = {text_of(state): number for state, number in zip(palette, numbers)}
    data = b"".join(varint(names[text_of(state)]) for state in states)
    sides = dict(zip(("Width", "Height", "Length"), map(Short, size)))
    if version == 3:
        blocks = {"Blocks": {"Palette": names, "Data": data, "BlockEntities": []}}
        return gzip.compress(nbt({"Schematic": {"Version": 3, "DataVersion": V1_21, **sides, **blocks}}))
    return gzip.compress(nbt({"Version": version, "DataVersion": V1_21, **sides, "Palette": names, "BlockData": data}))


class Files(unittest.TestCase):
    def setUp(self):
        room = tempfile.TemporaryDirectory()
        self.addCleanup(room.cleanup)
        self.folder = room.name

    def read(self, name, data):
        path = os.path.join(self.folder, name)
        with open(path, "wb") as file:
            file.write(data)
        return sources.read_file(path, sources.name_of_file(path))

    def refused(self, name, data):
        with self.assertRaises(Refusal) as seen:
            self.read(name, data)
        return str(seen.exception).replace(self.folder + os.sep, "")

    def assert_has(self, box, states):
        """The box has these states, by y, then z, then x; None where nothing is known."""
        found = [None if cell == Box.NO_ENTRY else box.palette[cell] for cell in box.cells]
        self.assertEqual(found, states)


class Litematics(Files):
    def test_palettes_of_each_size_in_the_order_of_axes(self):
        for count in (1, 2, 3, 4, 5, 17, 300):
            rng, size = random.Random(count), (5, 3, 7)
            states = [rng.choice(STATES[:count]) for _ in range(105)]
            cave = self.read("my.litematic", litematic({"a": region((9, -4, 2), size, states, STATES[:count])}))
            self.assertEqual((cave.box.size, cave.box.data_version, cave.box.name), (size, V1_21, "my"))
            self.assert_has(cave.box, states)
            self.assertIsNone(cave.data)

    def test_sides_that_lead_downwards_and_regions_apart(self):
        stone, air = STATES[1], STATES[0]
        parts = {"a": region((0, 0, 0), (-2, 1, 1), [air, stone], STATES[:2]),
                 "b": region((2, 0, 0), (1, 1, 1), [STATES[2]], STATES[2:3])}
        box = self.read("x.litematic", litematic(parts)).box
        self.assertEqual(box.size, (4, 1, 1))
        self.assert_has(box, [air, stone, None, STATES[2]])

    def test_damage(self):
        whole = region((0, 0, 0), (4, 4, 4), [STATES[0]] * 64, STATES[:2])
        for change, told in [({"BlockStates": Longs([1])}, "fewer block states"), ({"Size": vector((0, 1, 1))}, "no cells"),
                             ({"Size": vector((129, 1, 1))}, "129 x 1 x 1 cells, more than 128 a side"),
                             ({"BlockStates": Longs([3, 0])}, "state 3 of a palette of 2"), ({"Position": 5}, "wrong type")]:
            self.assertIn(told, self.refused("x.litematic", litematic({"a": {**whole, **change}})))
        self.assertIn("no region", self.refused("x.litematic", litematic({})))


class Sponge(Files):
    def test_versions_2_and_3(self):
        for version in (2, 3):
            for count in (1, 2, 200):
                rng, size = random.Random(count), (4, 3, 6)
                states = [rng.choice(STATES[:count]) for _ in range(72)]
                cave = self.read("my.schem", sponge(version, size, states, STATES[:count]))
                self.assertEqual((cave.box.size, cave.box.data_version, cave.box.name), (size, V1_21, "my"))
                self.assert_has(cave.box, states)

    def test_numbers_of_states_with_gaps(self):
        states = [STATES[at] for at in (2, 0, 1, 2)]
        self.assert_has(self.read("x.schem", sponge(2, (2, 1, 2), states, STATES[:3], [7, 300, 2])).box, states)

    def test_damage(self):
        self.assertIn("Sponge's version 1", self.refused("x.schem", sponge(1, (1, 1, 1), STATES[:1], STATES[:1])))
        self.assertIn("1 block states for 2 cells", self.refused("x.schem", sponge(2, (2, 1, 1), STATES[:1], STATES[:1])))
        wide = sponge(3, (200, 1, 1), STATES[:1] * 200, STATES[:1])
        self.assertIn("200 x 1 x 1 cells, more than 128 a side", self.refused("x.schem", wide))
        odd = [("minecraft:stone[a", {})]
        self.assertIn("is no block state", self.refused("x.schem", sponge(2, (1, 1, 1), odd, odd)))


class Others(Files):
    def test_files_of_another_kind_are_named_for_what_they_are(self):
        level = gzip.compress(nbt({"Data": {"LevelName": "x", "DataVersion": V1_21}}))
        old = gzip.compress(nbt({"Materials": "Alpha", "Blocks": b"\1", "Data": b"\0", "Width": Short(1)}))
        for name, data, told in [
            ("level.dat", level, "level.dat: a world's file: use --world FOLDER"),
            ("r.0.0.mca", bytes(8192), "r.0.0.mca: a region file of a world: use --world FOLDER"),
            ("cave.zip", b"PK\3\4...", "cave.zip: a zip archive: unpack it"),
            ("my.mcworld", b"PK\3\4...", "my.mcworld: a file of Bedrock Edition, which isn't read"),
            ("my.schematic", old, "my.schematic: a schematic of old, whose blocks are numbers"),
            ("me.dat", gzip.compress(nbt({"Pos": [0.5, 1.0, 2.0], "Inventory": []})), "me.dat: a player's file"),
        ]:
            self.assertIn(told, self.refused(name, data))

    def test_what_is_no_nbt_is_left_to_the_planner(self):
        for data in (b"", b"a text", nbt({"size": [1]})):
            self.assertEqual(self.read("x.nbt", data)[:2], (None, data))

    def test_a_world_s_folder(self):
        os.mkdir(os.path.join(self.folder, "w"))
        with open(os.path.join(self.folder, "w", "level.dat"), "wb"):
            pass
        with self.assertRaisesRegex(Refusal, "a world's folder: use --world"):
            sources.read_file(os.path.join(self.folder, "w"), "w")


if __name__ == "__main__":
    unittest.main()
