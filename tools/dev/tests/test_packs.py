"""The data pack: read back from its zip, and run by a small reader of commands."""
import io
import json
import re
import unittest
import zipfile

from made import AIR, floor_box, plan_of, row_of_torches
import packs
import versions
from boxes import Box
from names import plain

CORNER = (-233, -52, 1017)
SET = re.compile(r"setblock (\S+) (\S+) (\S+) (\S+)")
TAKE = re.compile(r"execute if block (\S+ \S+ \S+) (\S+) run setblock (\S+ \S+ \S+) (\S+)")
SHOW = re.compile(r"summon (minecraft:\w+) (\S+) (\S+) (\S+) (\{.*\})")
LONGEST_CHAIN = 65_536
GRASS, SHORT_GRASS = ("minecraft:grass", {}), ("minecraft:short_grass", {})
# What torches replace, and how commands name it.
REPLACED = [
    (AIR, "minecraft:air"),
    (("minecraft:cave_air", {}), "minecraft:cave_air"),
    (("minecraft:void_air", {}), "minecraft:void_air"),
    (("minecraft:snow", {"layers": "1"}), "minecraft:snow[layers=1]"),
    (("minecraft:fern", {}), "minecraft:fern"),
    (("minecraft:dead_bush", {}), "minecraft:dead_bush"),
    (("minecraft:short_dry_grass", {}), "minecraft:short_dry_grass"),
    (("cave:moss", {"wet": "true", "age": "3"}), "cave:moss[age=3,wet=true]"),
]


def air_box(**more):
    return Box((10, 10, 13), [AIR], [0] * 1300, **more)


def read_zip(data):
    """The files of a zip: texts by names."""
    with zipfile.ZipFile(io.BytesIO(data)) as archive:
        assert archive.testzip() is None
        return {entry.filename: archive.read(entry).decode() for entry in archive.infolist()}


def files_of(box, plan):
    return read_zip(packs.pack(box, plan))


def function(files, name, folder="function", root="", cave="cave"):
    return files[f"{root}data/torchplan/{folder}/{cave}/{name}.mcfunction"].splitlines()


def chain(files, name, folder):
    """The commands that are run by one call of a function, in lists, one for each chain: that of the call, then those
    that it schedules. `execute` counts beside what it runs."""
    own, later = [], []
    for line in function(files, name, folder):
        scheduled = re.fullmatch(r"schedule function torchplan:cave/(\S+) [1-9]\d*t", line)
        later += chain(files, scheduled[1], folder) if scheduled else []
        own += ["execute"] * line.startswith("execute") + [line]
    return [own, *later]


def names(folder, root="", functions=("hide", "place", "show", "undo")):
    return [f"{root}data/torchplan/{folder}/cave/{name}.mcfunction" for name in functions]


class Files(unittest.TestCase):
    def test_the_pack_has_each_function_for_old_and_new_versions(self):
        files = files_of(floor_box([AIR]), row_of_torches(1))
        overlay = names("functions", "since_1_20_3/", ["show"])
        self.assertEqual(sorted(files), sorted(["pack.mcmeta", *names("function"), *names("functions"), *overlay]))

    def test_two_caves_of_one_world_have_functions_and_marks_of_their_own(self):
        boxes = [floor_box([AIR], name=name) for name in ("My World 1 2 3 to 4 5 6", "My World 1 2 3 to 4 5 7")]
        first, second = (files_of(box, row_of_torches(1)) for box in boxes)
        self.assertEqual(set(first) & set(second), {"pack.mcmeta"})
        hidden = [function(files, "hide", cave=cave) for files, cave in
                  [(first, "my_world_1_2_3_to_4_5_6"), (second, "my_world_1_2_3_to_4_5_7")]]
        self.assertEqual(hidden[0], ["kill @e[tag=torchplan.my_world_1_2_3_to_4_5_6]"])
        self.assertNotEqual(*hidden)

    def test_names_of_functions_are_such_as_the_game_takes(self):
        for name in ("", "..", "../../x", "Höhle", "a\nb", "x" * 300, "C:\\cave", "\ud800"):
            for path in files_of(floor_box([AIR], name=name), row_of_torches(1)):
                self.assertRegex(path, r"\A(since_1_20_3/)?[a-z0-9_.-]+(/[a-z0-9_-][a-z0-9_.-]*)*\Z")
        self.assertNotEqual(plain("Höhle"), plain("Hühle"))
        self.assertEqual(plain("My Cave"), "my_cave")

    def test_a_plan_gives_the_same_bytes_each_time(self):
        packed = [packs.pack(floor_box([AIR] * 3), row_of_torches(3)) for _ in range(2)]
        self.assertEqual(packed[0], packed[1])
        with zipfile.ZipFile(io.BytesIO(packed[0])) as archive:
            entries = archive.infolist()
        self.assertEqual({entry.date_time for entry in entries}, {(1980, 1, 1, 0, 0, 0)})
        self.assertEqual([entry.filename for entry in entries], sorted(entry.filename for entry in entries))

    def test_a_plan_without_torches_gives_empty_functions(self):
        files = files_of(floor_box([AIR]), row_of_torches(0))
        placing = [name for folder in ("function", "functions") for name in names(folder, functions=("place", "undo"))]
        self.assertEqual({files[name] for name in placing}, {""})


class Meta(unittest.TestCase):
    def meta(self, data_version, **more):
        box = floor_box([AIR], data_version=data_version, **more)
        return json.loads(files_of(box, row_of_torches(1))["pack.mcmeta"])

    def test_it_is_for_1_18_to_the_latest_release(self):
        pack = self.meta(None)["pack"]
        self.assertEqual(pack["supported_formats"], {"min_inclusive": 8, "max_inclusive": 94})
        self.assertEqual((pack["min_format"], pack["max_format"]), (8, 94))

    def test_a_pack_for_an_earlier_world_begins_there(self):
        for data_version, first in ((2566, 5), (2586, 6), (2730, 7), (2860, 8), (3955, 8)):
            pack = self.meta(data_version)["pack"]
            self.assertEqual((pack["supported_formats"]["min_inclusive"], pack["min_format"]), (first, first))

    def test_its_main_format_lies_in_the_range_and_is_none_that_1_21_9_refuses(self):
        for release in versions.RELEASES:
            pack = self.meta(release.data_version)["pack"]
            self.assertLessEqual(pack["min_format"], pack["pack_format"])
            self.assertLessEqual(pack["pack_format"], pack["max_format"])
            self.assertGreaterEqual(pack["pack_format"], 15)
        self.assertEqual(self.meta(3955)["pack"]["pack_format"], 48)
        self.assertEqual(self.meta(99_999)["pack"]["pack_format"], 94)

    def test_its_description_is_the_name_as_it_is(self):
        self.assertEqual(self.meta(None, name='a "b"\n\u2028\\')["pack"]["description"], 'Torches for a "b"\n\u2028\\')


class Places(unittest.TestCase):
    torches = plan_of([
        (0, 1, 0, "floor"), (5, 0, 7, "north"), (0, 3, 12, "east"), (2, 1, 0, "south"), (9, 9, 9, "west"),
    ])

    def test_torches_stand_by_the_worlds_coordinates_in_its_dimension(self):
        box = air_box(corner=CORNER, dimension="minecraft:the_nether")
        self.assertEqual(function(files_of(box, self.torches), "place"), [
            "execute in minecraft:the_nether run setblock -233 -51 1017 minecraft:torch",
            "execute in minecraft:the_nether run setblock -228 -52 1024 minecraft:wall_torch[facing=north]",
            "execute in minecraft:the_nether run setblock -233 -49 1029 minecraft:wall_torch[facing=east]",
            "execute in minecraft:the_nether run setblock -231 -51 1017 minecraft:wall_torch[facing=south]",
            "execute in minecraft:the_nether run setblock -224 -43 1026 minecraft:wall_torch[facing=west]",
        ])

    def test_or_relative_to_where_the_function_is_run(self):
        self.assertEqual(function(files_of(air_box(), self.torches), "place"), [
            "setblock ~ ~1 ~ minecraft:torch",
            "setblock ~5 ~ ~7 minecraft:wall_torch[facing=north]",
            "setblock ~ ~3 ~12 minecraft:wall_torch[facing=east]",
            "setblock ~2 ~1 ~ minecraft:wall_torch[facing=south]",
            "setblock ~9 ~9 ~9 minecraft:wall_torch[facing=west]",
        ])

    def test_places_are_shown_by_the_torches_themselves_which_glow(self):
        box = air_box(corner=CORNER, dimension="minecraft:overworld")
        first, *lines = function(files_of(box, self.torches), "show")
        self.assertEqual(first, "kill @e[tag=torchplan.cave]")
        for line, torch in zip(lines, self.torches.torches):
            found = SHOW.fullmatch(line.replace("execute in minecraft:overworld run ", "", 1)).groups()
            self.assertEqual(found[0], "minecraft:block_display")
            # whole numbers without a point would be moved to the block's middle
            self.assertEqual(list(found[1:4]), [f"{at + more}.0" for at, more in zip(CORNER, torch)])
            self.assertIn('Tags:["torchplan.cave"],Glowing:1b', found[4])
        self.assertIn('block_state:{Name:"minecraft:torch"},', lines[0])
        self.assertIn('block_state:{Name:"minecraft:wall_torch",Properties:{facing:"north"}},', lines[1])

    def test_or_by_stands_in_the_middle_where_blocks_cannot_be_displayed(self):
        for version, entity in ((2860, "armor_stand"), (3465, "armor_stand"), (3698, "block_display")):
            box = air_box(corner=CORNER, dimension="minecraft:overworld", data_version=version)
            line = function(files_of(box, self.torches), "show", "functions")[2]
            found = SHOW.fullmatch(line.replace("execute in minecraft:overworld run ", "", 1)).groups()
            self.assertEqual(found[0], f"minecraft:{entity}")
            self.assertIn("Glowing:1b", found[4])
            if entity == "armor_stand":
                middle = [CORNER[0] + 5.5, CORNER[1], CORNER[2] + 7.5]
                self.assertEqual([float(at) for at in found[1:4]], middle)

    def test_what_is_shown_relatively_is_moved_to_the_block_where_the_function_is_run(self):
        line = function(files_of(air_box(), self.torches), "show")[2]
        self.assertTrue(line.startswith("execute align xyz run summon minecraft:block_display ~5.0 ~ ~7.0 {"), line)

    def test_old_and_new_versions_place_and_hide_alike(self):
        files = files_of(air_box(corner=CORNER, dimension="minecraft:overworld"), self.torches)
        for name in ("place", "hide"):
            self.assertEqual(function(files, name, "functions"), function(files, name, "function"))


class Undo(unittest.TestCase):
    def undo(self, before, folder, root="", **more):
        files = files_of(floor_box(before, **more), row_of_torches(len(before)))
        return [TAKE.fullmatch(line)[4] for line in function(files, "undo", folder, root)]

    def test_what_a_torch_replaced_is_put_back(self):
        before = [state for state, _ in REPLACED]
        for folder in ("functions", "function"):
            self.assertEqual(self.undo(before, folder), [told for _, told in REPLACED])

    def test_torches_are_taken_away_where_they_were_placed(self):
        files = files_of(floor_box([AIR] * 4), row_of_torches(4))
        placed = [SET.fullmatch(line).groups() for line in function(files, "place")]
        taken = [TAKE.fullmatch(line).groups() for line in function(files, "undo")]
        self.assertEqual([(at, block, at) for *place, block in placed for at in [" ".join(place)]],
                         [(at, block, again) for at, block, again, _ in taken])

    def test_a_block_that_was_put_there_since_stays(self):
        box = floor_box([AIR], corner=(1, 2, 3), dimension="minecraft:overworld")
        self.assertEqual(function(files_of(box, plan_of([(0, 1, 0, "east")])), "undo"), [
            "execute in minecraft:overworld if block 1 3 3 minecraft:wall_torch[facing=east]"
            " run setblock 1 3 3 minecraft:air"])

    def test_grass_is_named_as_each_version_names_it(self):
        for data_version in (None, 2586, 2860, 3578):
            more = {"before": [GRASS], "data_version": data_version}
            self.assertEqual(self.undo(folder="functions", **more), ["minecraft:grass"])
            self.assertEqual(self.undo(folder="functions", root="since_1_20_3/", **more), ["minecraft:short_grass"])
            self.assertEqual(self.undo(folder="function", **more), ["minecraft:short_grass"])

    def test_a_later_world_has_the_later_name_alone(self):
        for data_version in (None, 3698, 3839, 3953, 4671):
            more = {"before": [SHORT_GRASS], "data_version": data_version}
            self.assertEqual(self.undo(folder="functions", **more), ["minecraft:short_grass"])
            self.assertEqual(self.undo(folder="function", **more), ["minecraft:short_grass"])
            files = files_of(floor_box(**more), row_of_torches(1))
            self.assertEqual([name for name in files if "since" in name and "undo" in name], [])

    def test_an_overlay_is_for_the_versions_between(self):
        meta = json.loads(files_of(floor_box([GRASS]), row_of_torches(1))["pack.mcmeta"])
        entry = {"directory": "since_1_20_3", "formats": {"min_inclusive": 26, "max_inclusive": 41}}
        self.assertEqual(meta["overlays"], {"entries": [{**entry, "min_format": 26, "max_format": 41}]})

    def test_what_no_game_wrote_makes_no_command(self):
        before = [("minecraft:air\nop @a", {}), ("minecraft:fern", {"a]\nop @a\n#": "1", "b": "2 3"}), ("Air", {})]
        self.assertEqual(self.undo(before, "function"), ["minecraft:air", "minecraft:fern", "minecraft:air"])


class Long(unittest.TestCase):
    count = 70_000

    @classmethod
    def setUpClass(cls):
        cls.plan = row_of_torches(cls.count)
        box = floor_box([AIR] * cls.count, corner=CORNER, dimension="minecraft:the_end")
        cls.absolute = packs.files(box, cls.plan)
        cls.relative = packs.files(floor_box([AIR] * cls.count), cls.plan)

    def test_by_the_worlds_coordinates_one_call_runs_all_in_short_chains(self):
        for name in ("place", "undo", "show"):
            chains = chain(self.absolute, name, "function")
            self.assertLessEqual(max(map(len, chains)), LONGEST_CHAIN)
            lines = [line for part in chains for line in part if "run" in line]
            self.assertEqual(len(lines), self.count)
            self.assertTrue(all(line.startswith("execute in minecraft:the_end ") for line in lines))

    def test_relative_parts_are_run_by_hand(self):
        parts = [name for name in self.relative if "/function/cave/place/" in name]
        lines = [line for number in range(len(parts)) for line in function(self.relative, f"place/{number + 1}")]
        self.assertEqual(lines[1], "setblock ~1 ~1 ~ minecraft:torch")
        self.assertEqual(len(lines), self.count)
        self.assertNotIn("schedule", "".join(self.relative.values()))
        told = function(self.relative, "place")
        self.assertEqual(len(told), 1)
        self.assertIn(f"torchplan:cave/place/1 to torchplan:cave/place/{len(parts)}", told[0])

    def test_each_function_is_short(self):
        for files in (self.absolute, self.relative):
            lengths = [text.count("\n") + text.count("execute") for text in files.values()]
            self.assertLessEqual(max(lengths), LONGEST_CHAIN)


if __name__ == "__main__":
    unittest.main()
