"""The vanilla tables and the choice among them: each name of the game's list has a row, each row a name of the list,
and some blocks are as the game's facts say."""
import os
import re
import tempfile
import unittest

import paths
import tables
import unknowns
from made import AIR, floor_box
from reading import user_rows
from refusals import Refusal
from repository import EXAMPLES, TOOLS
from rows import COLUMNS, Row
from shipped import SHIPPED_ROWS, Apart, row_of
from saved_worlds import V1_16, V1_17, V1_18, V1_20, V1_21

OLD, NEW = "vanilla-1.18.toml", "vanilla-1.21.toml"
LATER_THAN_1_21_11 = 4_700

# Blocks that are new since 1.18, by the wiki's page of each: a name, its properties, and behind the bar opacity,
# emission and the columns that are yes.
FACTS = """
mud | 15 0 stand top side
packed_mud | 15 0 stand top side
muddy_mangrove_roots axis=y | 15 0 stand top side
mangrove_roots waterlogged=false | 1 0 stand
mangrove_leaves persistent=false | 1 0
mangrove_propagule hanging=true | 0 0 free
cherry_planks | 15 0 stand top side
pale_oak_slab type=bottom | 15 0
pale_oak_slab type=top | 15 0 stand top
bamboo_mosaic_stairs half=bottom shape=straight | 15 0
mud_brick_stairs half=top shape=inner_left | 15 0 stand top
tuff_brick_wall up=true | 0 0
sculk | 15 0 stand top side
sculk_catalyst bloom=false | 15 6 stand top side
sculk_shrieker shrieking=false | 15 0
sculk_vein down=true | 0 0 free
calibrated_sculk_sensor | 15 0
ochre_froglight axis=x | 15 15 top side
frogspawn | 0 0 free
reinforced_deepslate | 15 0 stand top side
suspicious_gravel dusted=0 | 15 0 stand top side
chiseled_bookshelf | 15 0 stand top side
cherry_wall_hanging_sign facing=east | 0 0 free
decorated_pot | 0 0
pink_petals flower_amount=4 | 0 0 free
short_grass | 0 0 free put
grass | 0 0 free put
grass_path | 15 0 stand
copper_bulb lit=true | 15 0 stand top side
copper_grate waterlogged=false | 0 0
waxed_oxidized_copper_door half=lower open=false | 0 0 free
exposed_copper_trapdoor half=top open=false | 0 0 free stand
trial_spawner trial_spawner_state=active | 1 0 stand
vault vault_state=active | 1 0 stand
heavy_core | 0 0
crafter | 15 0 stand top side
creaking_heart | 15 0 stand top side
pale_moss_carpet bottom=true | 0 0
pale_moss_carpet bottom=false | 0 0 free
resin_clump up=true | 0 0 free
open_eyeblossom | 0 0 free
firefly_bush | 0 2 free
dried_ghast | 0 0
copper_lantern hanging=true | 0 15
waxed_copper_lantern hanging=false | 0 15
copper_wall_torch facing=north | 0 14 free
oak_shelf | 15 0
iron_chain axis=y | 0 0
chain axis=y | 0 0
oxidized_lightning_rod facing=up | 0 0
potted_cherry_sapling | 0 0
redstone_lamp lit=true | 15 0 stand top side
stone | 15 0 stand top side
"""


def text(*path):
    with open(os.path.join(*path), encoding="utf-8") as file:
        return file.read()


def rows_of(name):
    return user_rows(text(EXAMPLES, "tables", name).encode())


def state(words):
    name, *props = words.split()
    return b"minecraft:" + name.encode(), dict(word.encode().split(b"=") for word in props)


class Vanilla(unittest.TestCase):
    def test_each_name_of_the_list_has_a_row_in_each_state(self):
        for name, list_name in [(OLD, "blocks-1.18.txt"), (NEW, "blocks-1.21.txt")]:
            rows = rows_of(name)
            for line in text(TOOLS, "dev", list_name).splitlines():
                if line.startswith("#") or not line:
                    continue
                block, *props = line.split(" ")
                states = [block] + [f"{block} {prop.partition('=')[0]}={value}"
                                    for prop in props for value in prop.partition("=")[2].split("|")]
                for words in states:
                    self.assertIsNotNone(row_of(rows, state(words)), words)

    def test_each_row_has_a_name_of_the_list(self):
        for name, list_name in [(OLD, "blocks-1.18.txt"), (NEW, "blocks-1.21.txt")]:
            lines = text(TOOLS, "dev", list_name).splitlines()
            listed = [f"minecraft:{line.split(' ')[0]}" for line in lines if not line.startswith("#")]
            self.assertEqual(listed, sorted(set(listed)))
            for row in [*rows_of(name), *SHIPPED_ROWS]:
                self.assertIn(row.name.decode(), listed)

    def test_how_many_names_there_are(self):
        lists = [[line for line in text(TOOLS, "dev", name).splitlines() if not line.startswith("#")]
                 for name in ("blocks-1.18.txt", "blocks-1.21.txt")]
        # 1.21.11 has 1,166 blocks, and three had another name before
        self.assertEqual([len(lines) for lines in lists], [898, 1_166 + 3])
        self.assertLessEqual({line.split(" ")[0] for line in lists[0]}, {line.split(" ")[0] for line in lists[1]})

    def test_the_new_table_has_all_rows_of_the_old_in_their_order(self):
        of_new = iter(rows_of(NEW))
        self.assertTrue(all(row in of_new for row in rows_of(OLD)))
        steady = lambda name: re.findall("^    # steady: .*", text(EXAMPLES, "tables", name), re.MULTILINE)
        of_new = iter(steady(NEW))
        self.assertTrue(all(line in of_new for line in steady(OLD)))

    def test_facts(self):
        rows = rows_of(NEW)
        for line in FACTS.strip().splitlines():
            block, _, due = line.partition(" | ")
            row = row_of(rows, state(block))
            found = " ".join([str(row.opacity), str(row.emission), *(one for one in COLUMNS if getattr(row, one))])
            self.assertEqual(found, due, block)

    def test_what_holds_of_every_row(self):
        for name in (OLD, NEW):
            for row in rows_of(name):
                self.assertFalse(row.free and row.opacity > 13, row)
                self.assertFalse(row.put and (row.opacity or row.emission or not row.free or row.stand), row)

    def test_each_new_row_has_its_page(self):
        for line in text(EXAMPLES, "tables", NEW).splitlines():
            if line not in text(EXAMPLES, "tables", OLD).splitlines() and "{" in line:
                self.assertRegex(line, r"\}, # [A-Z][\w ()]+$")

    def test_a_row_without_conditions_is_its_block_s_last(self):
        for name in (OLD, NEW):
            ended = set()
            for row in rows_of(name):
                self.assertNotIn(row.name, ended)
                if not row.when:
                    ended.add(row.name)


class Choice(unittest.TestCase):
    def setUp(self):
        room = tempfile.TemporaryDirectory()
        self.addCleanup(room.cleanup)
        self.path = os.path.join(room.name, "mine.toml")

    def mine(self, data):
        with open(self.path, "wb") as file:
            file.write(data)
        return self.path

    def test_by_the_data_version(self):
        due = [(V1_16, NEW), (V1_17, OLD), (V1_18, OLD), (2_975, OLD), (3_105, NEW), (V1_20, NEW), (V1_21, NEW),
               (LATER_THAN_1_21_11, NEW), (None, NEW)]
        for version, name in due:
            found = tables.chosen(version)
            self.assertEqual((found.name, found.data.decode()), (name, text(EXAMPLES, "tables", name)))
            self.assertTrue(os.path.samefile(found.path, os.path.join(EXAMPLES, "tables", name)))

    def test_what_is_later_than_the_tables(self):
        for version, is_later in [(None, False), (V1_16, False), (4_671, False), (4_672, True)]:
            self.assertEqual(tables.is_later(version), is_later)

    def test_steady_lights(self):
        found = tables.chosen(V1_18, is_steady=True)
        self.assertIsNone(found.path)
        rows = user_rows(found.data)
        self.assertEqual(row_of(rows, state("campfire lit=true")).emission, 15)
        self.assertEqual(row_of(rows, state("campfire lit=false")).emission, 0)
        self.assertGreater(len(rows), len(rows_of(OLD)))
        self.assertEqual(row_of(user_rows(tables.chosen(V1_21, None, True).data),
                                state("exposed_copper_bulb lit=true")).emission, 12)

    def test_the_rows_of_the_vanilla_tables(self):
        for version in (V1_18, V1_21):
            for is_steady in (False, True):
                data = tables.chosen(version, None, is_steady).data
                self.assertEqual(tables.vanilla_rows(data), user_rows(data))

    def test_rows_of_one_s_own_stand_before_those_of_the_vanilla_table(self):
        mine = b'[[row]]\nname = "minecraft:campfire"\nopacity = 1\n\n[[row]]\nname = "cave:felt"\nopacity = 15\n'
        for is_steady in (False, True):
            rows = user_rows(tables.chosen(None, tables.own_table(self.mine(mine)), is_steady).data)
            self.assertEqual(rows[:2], user_rows(mine))
            self.assertEqual(rows[2:], user_rows(tables.chosen(None, None, is_steady).data))

    def test_an_array_of_one_s_own_stands_alone(self):
        for mine in (b'row = [{ name = "*", opacity = 0 }]\n', b""):
            found = tables.chosen(None, tables.own_table(self.mine(mine)))
            self.assertEqual((found.data, found.path), (mine, self.path))

    def test_a_table_that_cannot_be_read(self):
        with self.assertRaises(Refusal) as seen:
            tables.own_table(self.path)
        self.assertEqual((str(seen.exception), seen.exception.status),
                         (f"cannot read {self.path}: No such file or directory", 6))

    def test_more_rows_stand_in_any_table(self):
        more = [Row(b"made:1", {}, 3, 5, False, True, False, False, True), Row(b"made:2", {}, 0, 0, *[False] * 5)]
        array = b'# rows\nrow = [ { name = "cave:felt", opacity = 1 } ] # so many\n'
        for mine in (b"", b'[[row]]\nname = "cave:felt"\nopacity = 1', array, text(EXAMPLES, "tables", OLD).encode()):
            rows = user_rows(tables.with_rows(mine, more))
            self.assertCountEqual(rows, [*user_rows(mine), *more])
        table = tables.chosen(None)
        self.assertIs(tables.more_of(table, []), table)
        self.assertIsNone(tables.more_of(table, more).path)


class Unknown(unittest.TestCase):
    def test_each_name_once_and_no_block_that_no_cell_has(self):
        box = floor_box([("cave:felt", {}), ("cave:felt", {"wet": "true"}), ("mod:ore", {}), AIR])
        box.palette.append(("mod:unused", {}))
        self.assertEqual(unknowns.unknown_names(box, Apart()), ["cave:felt", "mod:ore"])

    def test_the_table_takes_each_as_full_and_solid(self):
        full = lambda name: Row(name, {}, 15, 0, False, True, False, True, True)
        for own in (None, b'[[row]]\nname = "a:b"\nopacity = 15\nstand = true\ntop = true\nside = true\n',
                    b'row = [{ name = "a:b", opacity = 15, stand = true, top = true, side = true }]'):
            data = unknowns.table_for(["cave:felt", "mod:x/y"], own)
            self.assertTrue(data.startswith(b"# Blocks that no table has."))
            rows = user_rows(data)
            self.assertCountEqual(rows, [full(b"a:b")] * bool(own) + [full(b"cave:felt"), full(b"mod:x/y")])


if __name__ == "__main__":
    unittest.main()
