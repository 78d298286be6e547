"""Boxes of saved worlds, written by the tests' own writer."""
import os
import tempfile
import unittest
import zlib

import paths
import dimensions
import extents
import level_files
import saved_worlds
import worlds
from boxes import Box
from nbt_reader import text_of
from refusals import Refusal
from saved_worlds import V1_16, V1_17, V1_18, V1_21, Longs, Saved, chunk, nbt

STONE, AIR = ("minecraft:stone", {}), ("minecraft:air", {})


def many(count):
    """A block state of `count` for each cell, some of them with a property."""
    def block(x, y, z):
        number = (x % 16 + 16 * (z % 16) + 256 * (y % 16)) % count
        return f"test:b{number}", {"at": str(number)} if number % 3 == 0 else {}

    return block


def floor(x, y, z):
    return STONE if y % 8 == 0 or (x + z) % 7 == 0 else AIR


class Worlds(unittest.TestCase):
    def setUp(self):
        self.room = tempfile.TemporaryDirectory()
        self.addCleanup(self.room.cleanup)
        self.folder = os.path.join(self.room.name, "a world")

    def box(self, one, other, dimension="overworld"):
        world, extent = worlds.World(self.folder, dimensions.named(dimension)), extents.between(one, other)
        worlds.require_blocks(world, extent)
        return worlds.read_box(world, extent)

    def refused(self, one=(0, 0, 0), other=(15, 15, 15), dimension="overworld"):
        with self.assertRaises(Refusal) as seen:
            self.box(one, other, dimension)
        self.assertNotIn("\n", str(seen.exception))
        return str(seen.exception)

    def assert_has(self, box, corner, block):
        """The box has at each cell what the world has there."""
        self.assertEqual(box.corner, corner)
        for number in range(len(box.cells)):
            at = tuple(a + b for a, b in zip(corner, box.position(number)))
            self.assertEqual(box.palette[box.cells[number]], block(*at), at)


class Formats(Worlds):
    def test_palettes_of_each_size(self):
        counts = (1, 2, 16, 17, 256, 257, 4_096)
        for version, counts in [(V1_16, counts), (V1_17, (17,)), (V1_18, counts), (V1_21, (17,))]:
            for count in counts:
                with self.subTest(version=version, count=count):
                    Saved(self.folder, version=version).fill(many(count), [1], [(0, 0)], version)
                    self.assert_has(self.box((0, 16, 0), (15, 31, 15)), (0, 16, 0), many(count))

    def test_each_compression(self):
        for packing in (1, 2, 3):
            for is_outside in (False, True):
                with self.subTest(packing=packing, is_outside=is_outside):
                    Saved(self.folder).fill(floor, [0], [(3, 4)], packing=packing, is_outside=is_outside)
                    self.assert_has(self.box((48, 0, 64), (63, 15, 79)), (48, 0, 64), floor)

    def test_lz4_is_refused_by_name(self):
        Saved(self.folder).fill(floor, [0], [(0, 0)], packing=4)
        self.assertIn("region file r.0.0.mca: chunk 0 0: it is packed by LZ4", self.refused())

    def test_the_corners_in_any_order_over_chunks_and_regions(self):
        places = [(x, z) for x in (-2, -1, 0) for z in (-1, 0)]
        Saved(self.folder).fill(floor, [-2, -1, 0], places)
        for one, other in [((-20, -20, -5), (6, 9, 3)), ((6, -20, 3), (-20, 9, -5)), ((6, 9, -5), (-20, -20, 3))]:
            self.assert_has(self.box(one, other), (-20, -20, -5), floor)

    def test_the_old_format_over_chunks_and_regions(self):
        places = [(x, z) for x in (-1, 0) for z in (-1, 0)]
        Saved(self.folder, version=V1_16).fill(floor, [0, 1], places, V1_16)
        self.assert_has(self.box((-9, 3, -7), (11, 20, 5)), (-9, 3, -7), floor)

    def test_a_region_has_32_by_32_chunks(self):
        places = [(31, 31), (32, 31), (-32, -33), (-33, -33)]
        Saved(self.folder).fill(floor, [0], places)
        self.assertEqual(sorted(os.listdir(os.path.join(self.folder, "region"))),
                         ["r.-1.-2.mca", "r.-2.-2.mca", "r.0.0.mca", "r.1.0.mca"])
        self.assert_has(self.box((511, 0, 496), (512, 15, 511)), (511, 0, 496), floor)
        self.assert_has(self.box((-513, 0, -528), (-512, 15, -513)), (-513, 0, -528), floor)

    def test_each_dimension_in_either_layout(self):
        folders = {"overworld": "region", "the_nether": "DIM-1/region", "the_end": "DIM1/region"}
        for dimension, region in folders.items():
            for where in (region, f"dimensions/minecraft/{dimension}/region"):
                with self.subTest(where=where):
                    block = lambda x, y, z: (f"test:{len(where)}", {})
                    Saved(self.folder, where).fill(block, [0], [(0, 0)])
                    box = self.box((0, 0, 0), (3, 3, 3), dimension)
                    self.assert_has(box, (0, 0, 0), block)
                    self.assertEqual(box.dimension, f"minecraft:{dimension}")

    def test_a_chunk_that_is_larger_than_255_sectors(self):
        data = chunk(0, 0, floor, [0])[:-1] + b"\x07\0\x05noise" + (2 * 2**20).to_bytes(4, "big")
        data += os.urandom(2 * 2**20) + b"\0"
        saved = Saved(self.folder)
        saved.put(0, 0, data, is_outside=True)
        saved.write()
        self.assert_has(self.box((0, 0, 0), (15, 15, 15)), (0, 0, 0), floor)

    def test_a_region_file_without_padding_at_its_end(self):
        saved = Saved(self.folder)
        saved.put(0, 0, chunk(0, 0, floor, [0]))
        saved.write(is_padded=False)
        self.assertNotEqual(os.path.getsize(saved.path(0, 0)) % 4_096, 0)
        self.assert_has(self.box((0, 0, 0), (15, 15, 15)), (0, 0, 0), floor)

    def test_properties_and_names_are_kept(self):
        slab = "minecraft:oak_slab"
        states = [(slab, {"type": "bottom", "waterlogged": "true"}), (slab, {"type": "top"})]
        Saved(self.folder).fill(lambda x, y, z: states[x % 2], [0], [(0, 0)])
        self.assertEqual(self.box((0, 0, 0), (1, 0, 0)).palette, states)

    def test_what_the_world_tells_of_itself(self):
        Saved(self.folder, version=V1_21).fill(floor, [0], [(0, 0)])
        box = self.box((1, 2, 3), (4, 5, 6))
        self.assertEqual((box.size, box.data_version), ((4, 4, 4), V1_21))

    def test_the_player_stands_in_the_block_that_has_the_point(self):
        for told, player in [({"Pos": [-0.3, -60.0, 5.999], "Dimension": "minecraft:the_end"}, ((-1, -60, 5), "minecraft:the_end")),
                             ({"Pos": [1.0, 2.0, 3.0]}, ((1, 2, 3), "minecraft:overworld")),
                             ({"Pos": [1.0, 2.0]}, None), ({"Pos": [float("nan"), 1.0, 1.0]}, None), (None, None)]:
            Saved(self.folder, player=told)
            self.assertEqual(level_files.Level(self.folder).player, player)

    def test_without_level_dat_the_newest_chunk_tells_the_version(self):
        saved = Saved(self.folder, version=None)
        saved.put(0, 0, chunk(0, 0, floor, [0], V1_18))
        saved.put(1, 0, chunk(1, 0, floor, [0], V1_21))
        saved.write()
        self.assertEqual(self.box((0, 0, 0), (20, 3, 3)).data_version, V1_21)

    def test_nothing_is_written_to_the_world(self):
        Saved(self.folder).fill(floor, [0], [(0, 0)])
        seen = lambda: {path: os.stat(os.path.join(path, name)).st_mtime_ns for path, _, names in os.walk(self.folder)
                        for name in names}
        before = seen()
        self.box((0, 0, 0), (15, 15, 15))
        self.assertEqual(seen(), before)


class Gaps(Worlds):
    def test_absent_sections_are_air(self):
        Saved(self.folder).fill(floor, [2], [(0, 0)])
        known = lambda x, y, z: floor(x, y, z) if 32 <= y < 48 else AIR
        self.assert_has(self.box((0, 20, 0), (3, 60, 3)), (0, 20, 0), known)

    def test_a_section_of_light_alone_is_air(self):
        for version in (V1_16, V1_18):
            inner = {"xPos": 0, "zPos": 0, "Status": "full"}
            name = "Sections" if version == V1_16 else "sections"
            inner[name] = [{"Y": saved_worlds.Byte(0), "BlockLight": "left out"}]
            saved = Saved(self.folder, version=version)
            root = {"DataVersion": version, "Level": inner} if version == V1_16 else {"DataVersion": version, **inner}
            saved.put(0, 0, nbt(root))
            saved.write()
            self.assertEqual(self.box((0, 0, 0), (2, 2, 2)).palette, [AIR])

    def test_beyond_the_heights_nothing_is_known(self):
        for version, dimension, low, high in [(V1_18, "overworld", -64, 319), (V1_16, "overworld", 0, 255),
                                              (V1_18, "the_nether", 0, 255), (V1_18, "the_end", 0, 255)]:
            region = {"overworld": "region", "the_nether": "DIM-1/region", "the_end": "DIM1/region"}[dimension]
            Saved(self.folder, region, version).fill(floor, [low // 16, high // 16], [(0, 0)], version)
            box = self.box((0, low - 2, 0), (0, low + 1, 0), dimension)
            self.assertEqual([cell == Box.NO_ENTRY for cell in box.cells], [True, True, False, False])
            box = self.box((0, high - 1, 0), (0, high + 2, 0), dimension)
            self.assertEqual([cell == Box.NO_ENTRY for cell in box.cells], [False, False, True, True])

    def test_a_box_outside_of_the_heights(self):
        Saved(self.folder).fill(floor, [0], [(0, 0)])
        self.assertEqual(self.refused((0, 400, 0), (3, 410, 3)),
                         "the box lies outside of the world, whose layers are -64 to 319")

    def test_sections_beyond_the_usual_heights_are_read(self):
        Saved(self.folder).fill(floor, [25], [(0, 0)])
        self.assert_has(self.box((0, 400, 0), (3, 410, 3)), (0, 400, 0), floor)

    def test_nothing_is_known_of_absent_chunks(self):
        Saved(self.folder).fill(floor, [0], [(0, 0), (1, 0)])
        box = self.box((14, 0, 14), (17, 1, 17))
        self.assertEqual({number for number, cell in enumerate(box.cells) if cell == Box.NO_ENTRY},
                         {box.number(x, y, z) for x in range(4) for y in (0, 1) for z in (2, 3)})
        world = worlds.World(self.folder)
        self.assertEqual(worlds.missing(world, extents.between((14, 0, 14), (17, 1, 17))), [(0, 1), (1, 1)])

    def test_a_box_none_of_whose_chunks_is_there(self):
        Saved(self.folder).fill(floor, [0], [(0, 0), (1, 0)])
        self.assertEqual(self.refused((0, 0, 16), (15, 3, 31)),
                         "region file r.0.0.mca: chunk 0 1 isn't there: walk there in the game first")
        self.assertIn("chunk 0 1 isn't there, nor are 3 more of the box", self.refused((0, 0, 16), (31, 3, 33)))
        told = self.refused((4800, 0, -4000), (4801, 1, -3999))
        self.assertIn("region file r.9.-8.mca: chunk 300 -250 isn't there", told)

    def test_a_region_file_of_no_bytes_has_no_chunk(self):
        open(Saved(self.folder).path(0, 0), "wb").close()
        self.assertIn("chunk 0 0 isn't there", self.refused())

    def test_chunks_that_are_not_finished(self):
        for status in ("minecraft:noise", "empty", "minecraft:carvers"):
            saved = Saved(self.folder)
            saved.put(0, 0, chunk(0, 0, floor, [0], status=status))
            saved.write()
            self.assertEqual(self.refused(), "region file r.0.0.mca: chunk 0 0: the game hasn't finished it"
                                             f" (Status {status}): walk there first")
        saved.put(0, 0, chunk(0, 0, floor, [0], status="minecraft:full"))
        saved.write()
        self.assert_has(self.box((0, 0, 0), (15, 15, 15)), (0, 0, 0), floor)

    def test_versions_before_1_16(self):
        saved = Saved(self.folder)
        saved.put(0, 0, chunk(0, 0, floor, [0], 2_230))
        saved.write()
        self.assertIn("chunk 0 0: data version 2230 is older than 1.16's", self.refused())

    def test_no_world(self):
        self.assertIn("is no folder of a saved world", self.refused())
        os.makedirs(self.folder)
        self.assertIn("has no region files of overworld", self.refused())
        Saved(self.folder)
        self.assertIn("has no region files of the_end", self.refused(dimension="the_end"))


class Around(Worlds):
    def around(self, point, dimension="overworld"):
        return worlds.extent_around(worlds.World(self.folder, dimensions.named(dimension)), point)

    def setUp(self):
        super().setUp()
        self.saved = Saved(self.folder)
        self.empty = [(x, z) for x in range(-4, 5) for z in range(-4, 5)]

    def fill(self, places, **how):
        for x, z in places:
            self.saved.put(x, z, chunk(x, z, floor, [], **how))
        self.saved.write()

    def test_76_by_40_by_76_about_the_point(self):
        self.fill(self.empty)
        self.assertEqual(self.around((3, 20, -2)), ((-35, 4, -40), (40, 43, 35)))

    def test_within_the_heights(self):
        self.fill(self.empty)
        self.assertEqual(self.around((0, -60, 0)), ((-38, -64, -38), (37, -25, 37)))
        self.assertEqual(self.around((0, 319, 0)), ((-38, 280, -38), (37, 319, 37)))
        with self.assertRaisesRegex(Refusal, "y 320 lies outside of the world, whose layers are -64 to 319"):
            self.around((0, 320, 0))

    def test_within_the_chunks_that_are_there_and_finished(self):
        self.fill([(x, z) for x, z in self.empty if x > -2 and z < 1])
        self.fill([(2, -1)], status="minecraft:noise")
        self.assertEqual(self.around((0, 0, 0)), ((-16, -16, -38), (31, 23, 15)))

    def test_no_chunk_beyond_the_box_is_read(self):
        self.fill([(x, 0) for x in range(-9, 10)] + [(0, z) for z in range(-9, 10)])
        world = worlds.World(self.folder)
        worlds.extent_around(world, (0, 0, 0))
        self.assertLessEqual(max(max(abs(x), abs(z)) for x, z in world.chunks), 3)

    def test_the_chunk_of_the_point_has_to_be_there(self):
        self.fill([(0, 0)])
        self.assertEqual(self.around((8, 0, 8)), ((0, -16, 0), (15, 23, 15)))
        with self.assertRaisesRegex(Refusal, "chunk 1 0 isn't there"):
            self.around((16, 0, 8))


class Damage(Worlds):
    def setUp(self):
        super().setUp()
        self.saved, self.world = Saved(self.folder), None
        self.stone = lambda x, y, z: STONE

    def reads(self):
        """Whether two chunks are read as they were; what is refused is refused in one line."""
        self.world = self.world or worlds.World(self.folder)
        try:
            for x in (0, 1):
                chunk = self.world.read(x, 0)
                if chunk is None:
                    return False
                self.assertEqual(chunk.section(0), ([STONE], [0] * 4_096))
        except Refusal as why:
            self.assertRegex(str(why), r"\Aregion file r\.0\.0\.mca: [^\n]+\Z")
            return False
        return True

    def test_each_byte_of_the_header(self):
        self.saved.fill(self.stone, [0], [(0, 0), (1, 0)])
        self.assertTrue(self.reads())
        with open(self.saved.path(0, 0), "r+b", buffering=0) as file:
            for at in range(8_192):
                was = os.pread(file.fileno(), 1, at)
                os.pwrite(file.fileno(), bytes([was[0] ^ 0xFF]), at)
                # a chunk may have more sectors than it needs
                self.assertEqual(self.reads(), at in (3, 7) or at >= 8)
                os.pwrite(file.fileno(), was, at)

    def test_each_value_of_the_bytes_that_tell_a_chunk_s_place(self):
        self.saved.fill(self.stone, [0], [(0, 0), (1, 0)])
        with open(self.saved.path(0, 0), "r+b", buffering=0) as file:
            for at in range(4):
                was = os.pread(file.fileno(), 1, at)
                for value in range(256):
                    os.pwrite(file.fileno(), bytes([value]), at)
                    # more sectors than the chunk needs are no fault
                    self.assertEqual(self.reads(), value == was[0] or at == 3 and value > was[0])
                os.pwrite(file.fileno(), was, at)

    def test_cut_at_each_sector(self):
        for packing in (1, 2, 3):
            for x in (0, 1):
                noise = b"\x07\0\x05noise" + (9_000).to_bytes(4, "big") + os.urandom(9_000)
                self.saved.put(x, 0, chunk(x, 0, self.stone, [0])[:-1] + noise + b"\0", packing)
            self.saved.write()
            path = self.saved.path(0, 0)
            with open(path, "rb") as file:
                whole = file.read()
            told = set()
            for sector in range(len(whole) // 4_096):
                for length in (4_096 * sector, 4_096 * sector + 3):
                    with open(path, "wb") as file:
                        file.write(whole[:length])
                    told.add(self.refused((0, 0, 0), (31, 0, 0)))
            self.assertGreater(len(told), 6)

    def test_cut_within_the_packed_data(self):
        self.saved.fill(floor, [0], [(0, 0), (1, 0)])
        with open(self.saved.path(0, 0), "r+b") as file:
            file.seek(8_192)
            length = int.from_bytes(file.read(4), "big")
            file.seek(8_192)
            file.write((length - 9).to_bytes(4, "big"))
        self.assertEqual(self.refused(), "region file r.0.0.mca: chunk 0 0: its packed data is cut off")

    def test_damaged_packed_data(self):
        for packing, at in [(1, 30), (2, 30), (1, 0), (2, 0)]:
            self.saved.fill(floor, [0], [(0, 0)], packing=packing)
            with open(self.saved.path(0, 0), "r+b") as file:
                file.seek(8_192 + 5 + at)
                file.write(b"\xff\xff\xff\xff")
            self.assertEqual(self.refused(), "region file r.0.0.mca: chunk 0 0: its packed data is damaged")

    def test_a_length_that_does_not_fit(self):
        self.saved.fill(floor, [0], [(0, 0)])
        for length in (0, 4_093, 2**31, 2**32 - 1):
            with open(self.saved.path(0, 0), "r+b") as file:
                file.seek(8_192)
                file.write(length.to_bytes(4, "big"))
            told = r"chunk 0 0: its length of [\d,]+ bytes doesn't fit its sectors, 1 of 4,096"
            self.assertRegex(self.refused(), told)

    def test_an_unknown_compression(self):
        self.saved.fill(floor, [0], [(0, 0)])
        for packing in (0, 5, 127, 128, 133):
            with open(self.saved.path(0, 0), "r+b") as file:
                file.seek(8_192 + 4)
                file.write(bytes([packing]))
            with open(os.path.join(self.folder, "region", "c.0.0.mcc"), "wb") as file:
                file.write(b"x")
            self.assertIn(f"chunk 0 0: its compression {packing % 128} is none of 1 to 4", self.refused())

    def test_a_chunk_of_no_bytes(self):
        for is_outside in (False, True):
            self.saved.put(0, 0, b"", 3, is_outside)
            self.saved.write()
            self.assertEqual(self.refused(), "region file r.0.0.mca: chunk 0 0: nbt: truncated at 0")

    def test_a_file_of_its_own_that_is_missing_or_damaged(self):
        self.saved.fill(floor, [0], [(5, -6)], is_outside=True)
        path = os.path.join(self.folder, "region", "c.5.-6.mcc")
        at = (80, 0, -96), (80, 0, -96)
        with open(path, "r+b") as file:
            file.truncate(50)
        self.assertEqual(self.refused(*at), "region file r.0.-1.mca: chunk 5 -6: its packed data is cut off")
        os.remove(path)
        self.assertEqual(self.refused(*at), "region file r.0.-1.mca: chunk 5 -6: its file c.5.-6.mcc isn't there")

    def test_a_bomb(self):
        data = zlib.compress(bytes(70 * 2**20))
        self.saved.fill(floor, [0], [(0, 0)], is_outside=True)
        with open(os.path.join(self.folder, "region", "c.0.0.mcc"), "wb") as file:
            file.write(data)
        self.assertEqual(self.refused(), "region file r.0.0.mca: chunk 0 0: it unpacks to more than 67,108,864 bytes")

    def test_a_chunk_that_says_it_is_another(self):
        self.saved.put(0, 0, chunk(0, 0, floor, [0], at=(3, -4)))
        self.saved.write()
        self.assertEqual(self.refused(), "region file r.0.0.mca: chunk 0 0: it says that it is chunk 3 -4")

    def test_a_header_that_is_cut(self):
        for length in (1, 4_095, 4_096, 8_191):
            with open(self.saved.path(0, 0), "wb") as file:
                file.write(bytes(length))
            told = f"region file r.0.0.mca: it ends at {length:,}, within its header of 8,192"
            self.assertEqual(self.refused(), told)

    def sections_refused(self, section):
        root = {"DataVersion": V1_18, "xPos": 0, "zPos": 0, "Status": "full", "sections": [section]}
        self.saved.put(0, 0, nbt(root))
        self.saved.write()
        prefix, told = "region file r.0.0.mca: chunk 0 0: ", self.refused()
        self.assertTrue(told.startswith(prefix))
        return told[len(prefix):]

    def test_sections_that_do_not_fit(self):
        height, names = {"Y": saved_worlds.Byte(0)}, [{"Name": "a:b"}, {"Name": "a:c"}]
        with_data = lambda palette, data: {**height, "block_states": {"palette": palette, "data": data}}
        without = lambda palette: {**height, "block_states": {"palette": palette}}
        longs = Longs([0] * 256)
        self.assertEqual(self.sections_refused(without(names)), "a section has a palette of 2, and no blocks")
        self.assertEqual(self.sections_refused(with_data([], longs)), "a section has a palette of 0, and some blocks")
        self.assertEqual(self.sections_refused(without([])), "a section has a palette of 0, and no blocks")
        self.assertEqual(self.sections_refused(with_data(names, Longs([0] * 255))),
                         "a section has 255 longs for a palette of 2, not 256")
        self.assertEqual(self.sections_refused(with_data(names, Longs([0] * 255 + [2 << 60]))),
                         "a section has state 2 of a palette of 2")
        self.assertEqual(self.sections_refused(with_data(names, "no longs")), "its data has the wrong type")
        self.assertEqual(self.sections_refused(without([{"Nam": "a:b"}])), "it has no Name")
        self.assertEqual(self.sections_refused(with_data([1, 2], longs)), "its palette has the wrong type")
        self.assertEqual(self.sections_refused({"block_states": 3}), "a section has no Y")
        self.assertEqual(self.sections_refused({**height, "block_states": 3}), "its block_states has the wrong type")

    def test_every_byte_of_a_chunk_s_nbt(self):
        data = chunk(0, 0, self.stone, [0])
        for at in range(len(data)):
            for change in (1, 0x80):
                self.saved.put(0, 0, data[:at] + bytes([data[at] ^ change]) + data[at + 1 :], packing=3)
                self.saved.write()
                try:
                    self.box((0, 0, 0), (0, 0, 0))
                except Refusal as why:
                    self.assertRegex(str(why), r"\A(region file r\.0\.0\.mca: chunk 0 0: )[^\n]+\Z")

    def test_a_damaged_level_dat(self):
        path = os.path.join(self.folder, "level.dat")
        self.saved.fill(floor, [0], [(0, 0)])
        for data, told in [(b"", "nbt: truncated at 0"), (b"\x1f\x8bxx", "its packed data is damaged"),
                           (b"\x1f\x8b\x08", "its packed data is cut off"), (b"\x03\0\0", "nbt: root is no compound")]:
            with open(path, "wb") as file:
                file.write(data)
            self.assertEqual(self.refused(), f"level.dat: {told}")


if __name__ == "__main__":
    unittest.main()
