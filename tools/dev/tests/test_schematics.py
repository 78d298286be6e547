"""torches.litematic and torches.nbt, read back by a reader of the test's own."""
import math
import random
import unittest

from made import AIR, floor_box, plan_of, row_of_torches
from small_nbt import read_packed

import schematics

HANGS = ["floor", "north", "east", "south", "west"]
EMPTY_LISTS = ["Entities", "TileEntities", "PendingBlockTicks", "PendingFluidTicks"]


def state_of(hang):
    if hang == "floor":
        return {"Name": "minecraft:torch"}
    return {"Name": "minecraft:wall_torch", "Properties": {"facing": hang}}


def random_plan(seed, size, count):
    rng = random.Random(seed)
    places = rng.sample([(x, y, z) for x in range(size[0]) for y in range(size[1]) for z in range(size[2])], count)
    return plan_of([(*place, rng.choice(HANGS)) for place in places])


PLANS = [
    row_of_torches(1),
    row_of_torches(40),
    plan_of([(5, 6, 7, "west")]),
    plan_of([(3, 2, 9, "floor"), (3, 2, 8, "north"), (8, 40, 1, "floor")]),
    *[random_plan(seed, (30, 20, 25), 60) for seed in range(3)],
]


def unpacked(longs, bits, count):
    """Numbers of Litematica's packed longs, where one may lie across two longs."""
    stream = "".join(f"{number % 2 ** 64:064b}"[::-1] for number in longs)
    return [int(stream[at * bits : (at + 1) * bits][::-1], 2) for at in range(count)]


def blocks_of(region):
    """The block state of each cell of a region that isn't air, by its place from the schematic's origin."""
    at, size = [[region[name][axis] for axis in "xyz"] for name in ("Position", "Size")]
    palette = region["BlockStatePalette"]
    bits = max(2, math.ceil(math.log2(len(palette))))
    count = size[0] * size[1] * size[2]
    assert len(region["BlockStates"]) == math.ceil(count * bits / 64)
    found = {}
    for cell, index in enumerate(unpacked(region["BlockStates"], bits, count)):
        y, rest = divmod(cell, size[0] * size[2])
        z, x = divmod(rest, size[0])
        if palette[index] != {"Name": "minecraft:air"}:
            found[at[0] + x, at[1] + y, at[2] + z] = palette[index]
    return found


class Litematic(unittest.TestCase):
    box = floor_box([AIR], name="deep cave", data_version=3955)

    def root(self, plan, box=None):
        return read_packed(schematics.litematic(box or self.box, plan))

    def test_its_blocks_are_the_torches_from_the_boxs_corner(self):
        for plan in PLANS:
            regions = self.root(plan)["Regions"]
            self.assertEqual(list(regions), ["torches"])
            wanted = {torch[:3]: state_of(torch.hang) for torch in plan.torches}
            self.assertEqual(blocks_of(regions["torches"]), wanted)

    def test_its_box_is_the_least_about_the_torches(self):
        region = self.root(plan_of([(3, 2, 9, "floor"), (8, 40, 1, "floor")]))["Regions"]["torches"]
        self.assertEqual(region["Position"], {"x": 3, "y": 2, "z": 1})
        self.assertEqual(region["Size"], {"x": 6, "y": 39, "z": 9})
        self.assertEqual([region[name] for name in EMPTY_LISTS], [[], [], [], []])

    def test_its_head_is_as_litematica_writes_it(self):
        root = self.root(PLANS[3])
        self.assertEqual((root["Version"], root["SubVersion"], root["MinecraftDataVersion"]), (6, 1, 3955))
        self.assertEqual(set(root), {"Version", "SubVersion", "MinecraftDataVersion", "Metadata", "Regions"})
        told = root["Metadata"]
        self.assertEqual(told["Name"], "Torches for deep cave")
        self.assertEqual(told["EnclosingSize"], {"x": 6, "y": 39, "z": 9})
        self.assertEqual((told["TotalBlocks"], told["TotalVolume"], told["RegionCount"]), (3, 6 * 39 * 9, 1))
        names = {"Author", "Description", "TimeCreated", "TimeModified"}
        self.assertLessEqual(names, set(told))

    def test_of_a_box_of_unknown_version_it_is_for_1_18(self):
        self.assertEqual(self.root(PLANS[0], floor_box([AIR]))["MinecraftDataVersion"], 2860)

    def test_its_name_may_have_any_characters(self):
        for name in ('<b>"\\', "\0", "höhle", "\u6d1e\u7a74", "\U0001f526 cave"):
            told = self.root(PLANS[0], floor_box([AIR], name=name))["Metadata"]
            self.assertEqual(told["Name"], f"Torches for {name}")

    def test_without_torches_it_is_one_cell_of_air(self):
        region = self.root(row_of_torches(0))["Regions"]["torches"]
        self.assertEqual((region["Size"], blocks_of(region)), ({"x": 1, "y": 1, "z": 1}, {}))

    def test_a_plan_gives_the_same_bytes_each_time(self):
        for write in (schematics.litematic, schematics.structure):
            self.assertEqual(write(self.box, PLANS[3]), write(self.box, PLANS[3]))
            self.assertEqual(write(self.box, PLANS[3])[4:8], b"\0\0\0\0")  # the time in gzip's head


class Structure(unittest.TestCase):
    def root(self, plan, **more):
        return read_packed(schematics.structure(floor_box([AIR], **more), plan))

    def test_its_blocks_are_the_torches_from_their_least_corner(self):
        for plan in PLANS:
            root = self.root(plan)
            low = [min(torch[axis] for torch in plan.torches) for axis in range(3)]
            high = [max(torch[axis] for torch in plan.torches) for axis in range(3)]
            self.assertEqual(root["size"], [last - first + 1 for first, last in zip(low, high)])
            found = {tuple(block["pos"]): root["palette"][block["state"]] for block in root["blocks"]}
            wanted = {
                tuple(at - least for at, least in zip(torch, low)): state_of(torch.hang) for torch in plan.torches
            }
            self.assertEqual(found, wanted)
            self.assertEqual(len(root["blocks"]), len(plan.torches))

    def test_it_has_a_data_version_and_no_air(self):
        self.assertEqual(self.root(PLANS[0], data_version=3839)["DataVersion"], 3839)
        self.assertEqual(self.root(PLANS[0])["DataVersion"], 2860)
        names = {state["Name"] for state in self.root(PLANS[3])["palette"]}
        self.assertEqual(names, {"minecraft:torch", "minecraft:wall_torch"})
        self.assertEqual(self.root(PLANS[0])["entities"], [])

    def test_without_torches_it_is_empty(self):
        root = self.root(row_of_torches(0))
        self.assertEqual((root["size"], root["blocks"], root["palette"]), ([1, 1, 1], [], []))


if __name__ == "__main__":
    unittest.main()
