"""The page: its data, unpacked by a reader of the test's own, and names that need escaping. tools/dev/try-page opens it
in a browser."""
import base64
import html.parser
import json
import random
import re
import unittest

from made import AIR, STONE, floor_box, plan_of, row_of_torches

import looks
import page
from boxes import Box
from plans import Plan, Torch

HOSTILE = ["</script><script>x</script>", "<!--<script>", "a & b", '"quoted" \'name\'', "]]>", "\u2028", "</title><b>"]


class Elements(html.parser.HTMLParser):
    """The elements of a page: their names and attributes, and the text of each name's."""

    def __init__(self, text):
        super().__init__()
        self.starts, self.texts, self.open = [], {}, []
        self.feed(text)
        self.close()

    def handle_starttag(self, tag, attributes):
        self.starts.append((tag, dict(attributes)))
        self.open.append(tag)

    def handle_endtag(self, tag):
        while self.open and self.open.pop() != tag:
            pass

    def handle_data(self, data):
        if self.open:
            self.texts.setdefault(self.open[-1], []).append(data)


def made_page(box, plan, dark=(), levels=None, verdict=None):
    """The text of a page, without any light unless levels are told."""
    return page.page(box, plan, list(dark), bytes(len(box.cells)) if levels is None else levels, verdict)


def data_of(text):
    """What the scripts read."""
    return json.loads(re.search(r'<script id="data" type="application/json">(.*?)</script>', text, re.DOTALL)[1])


def numbers(text):
    found, number, shift = [], 0, 0
    for byte in base64.b64decode(text):
        number |= (byte & 0x7F) << shift
        shift += 7
        if byte < 0x80:
            found.append(number)
            number = shift = 0
    return found


def unrun(text):
    told = numbers(text)
    return [value for at in range(0, len(told), 2) for value in [told[at]] * told[at + 1]]


def ungap(text):
    found = []
    for gap in numbers(text):
        found.append(gap + (found[-1] if found else 0))
    return found


def random_box(seed, size, kinds):
    """A box of random cells, some without an entry."""
    rng = random.Random(seed)
    palette = [(f"cave:block{index}", {}) for index in range(kinds)]
    return Box(size, palette, [rng.randrange(-1, kinds) for _ in range(size[0] * size[1] * size[2])], name="random")


class Data(unittest.TestCase):
    def test_cells_levels_and_dark_cells_are_told_whole(self):
        rng = random.Random(1)
        for size, kinds in (((1, 1, 1), 1), ((5, 4, 3), 3), ((40, 3, 50), 300), ((128, 2, 128), 2)):
            box = random_box(kinds, size, kinds)
            levels = bytes(rng.randrange(16) for _ in box.cells)
            dark = [box.position(cell) for cell in rng.sample(range(len(box.cells)), len(box.cells) // 3)]
            data = data_of(made_page(box, row_of_torches(0), dark, levels))
            self.assertEqual(unrun(data["cells"]), [index + 1 for index in box.cells])
            self.assertEqual(unrun(data["levels"]), list(levels))
            self.assertEqual(ungap(data["dark"]), sorted(box.number(*at) for at in dark))

    def test_torches_and_place_are_told(self):
        torches = [(0, 1, 0, "floor"), (1, 1, 0, "west")]
        box = floor_box([AIR, AIR], name="x", corner=(-1, 2, -3), dimension="minecraft:the_end")
        data = data_of(made_page(box, plan_of(torches, 1), verdict=None))
        self.assertEqual(data["torches"], [list(torch) for torch in torches])
        told = [data[name] for name in ("size", "corner", "dimension", "atLeast", "verdict")]
        self.assertEqual(told, [[2, 2, 1], [-1, 2, -3], "minecraft:the_end", 1, None])

    def test_block_states_are_named_with_their_properties(self):
        box = floor_box([("minecraft:snow", {"layers": "1"}), ("cave:felt", {})])
        names = [name for name, _, _ in data_of(made_page(box, row_of_torches(0)))["palette"]]
        self.assertEqual(names, ["stone", "snow[layers=1]", "cave:felt"])

    def test_ticks_are_kept_apart_for_other_plans_and_caves(self):
        boxes = [floor_box([AIR] * 3, name=name, corner=corner) for name in "ab" for corner in (None, (0, 0, 1))]
        keys = [data_of(made_page(box, row_of_torches(count)))["key"] for box in boxes for count in (1, 2)]
        self.assertEqual(len(set(keys)), 8)
        self.assertEqual(keys[0], data_of(made_page(boxes[0], row_of_torches(1)))["key"])

    def test_the_largest_box_has_a_page_of_a_few_megabytes(self):
        box = random_box(5, (128, 16, 128), 100)
        levels = bytes(cell % 16 for cell in range(len(box.cells)))
        dark = [box.position(cell) for cell in range(0, len(box.cells), 2)]
        self.assertLess(len(made_page(box, row_of_torches(0), dark, levels)), 3_000_000)


class Escaping(unittest.TestCase):
    plain = Elements(made_page(floor_box([AIR], name="plain"), row_of_torches(1)))

    def test_a_name_is_text_and_nothing_else(self):
        for name in HOSTILE:
            elements = Elements(made_page(floor_box([AIR], name=name), row_of_torches(1)))
            self.assertEqual(elements.starts, self.plain.starts)
            for tag in ("title", "h1"):
                self.assertEqual("".join(elements.texts[tag]), f"Torches for {name}")

    def test_the_data_has_names_as_they_are(self):
        for name in HOSTILE:
            box = Box((1, 1, 1), [(name, {name: name})], [0], name=name)
            data = data_of(made_page(box, row_of_torches(0)))
            self.assertEqual(data["name"], name)
            self.assertEqual(data["palette"][0][0], f"{name}[{name}={name}]")

    def test_a_name_may_hold_what_stands_for_a_piece_of_the_page(self):
        text = made_page(floor_box([AIR], name="{{DATA}} {{SCRIPT}}"), row_of_torches(1))
        self.assertIn("<title>Torches for {{DATA}} {{SCRIPT}}</title>", text)

    def test_the_page_asks_for_nothing_from_elsewhere(self):
        for tag, attributes in self.plain.starts:
            self.assertNotIn("src", attributes, tag)
            self.assertIn(attributes.get("href", "data:,"), ("data:,",), tag)
        self.assertIn("default-src 'none'", str(self.plain.starts))

    def test_every_field_has_a_label(self):
        labelled, inside = [], False
        for tag, attributes in self.plain.starts:
            inside = tag == "label" or (inside and tag == "input")
            if tag in ("input", "canvas", "progress"):
                labelled.append(inside or "aria-label" in attributes or "aria-labelledby" in attributes)
        self.assertEqual(labelled.count(False), 1)  # the map's label follows its layer


class Looks(unittest.TestCase):
    def test_a_block_is_what_its_name_says(self):
        told = {
            "stone": looks.SOLID, "deepslate_diamond_ore": looks.SOLID, "grass_block": looks.SOLID, "air": looks.ROOM,
            "cave_air": looks.ROOM, "water": looks.WATER, "lava": looks.LAVA, "torch": looks.LIGHT,
            "soul_wall_torch": looks.LIGHT, "lantern": looks.LIGHT, "sea_lantern": looks.LIGHT, "rail": looks.THING,
            "powered_rail": looks.THING, "oak_fence": looks.THING, "stone_slab": looks.THING, "grass": looks.THING,
            "snow": looks.THING, "snow_block": looks.SOLID, "glass": looks.THING, "oak_planks": looks.SOLID,
        }
        for name, kind in told.items():
            self.assertEqual(looks.kind_of(f"minecraft:{name}", {}), kind, name)
        self.assertEqual(looks.kind_of("minecraft:redstone_lamp", {"lit": "true"}), looks.LIGHT)
        self.assertEqual(looks.kind_of("minecraft:redstone_lamp", {"lit": "false"}), looks.SOLID)

    def test_what_the_plan_draws_counts_more(self):
        box = floor_box([("cave:fog", {}), ("cave:glow", {}), ("minecraft:torch", {}), AIR])
        plan = Plan([Torch(3, 1, 0, "floor")], 1, None, {1: [".*#T"]})
        self.assertEqual(looks.kinds(box, plan), [looks.SOLID, looks.ROOM, looks.LIGHT, looks.THING, looks.ROOM])

    def test_every_block_has_a_colour(self):
        for name in ("minecraft:stone", "minecraft:lava", "cave:felt", "", "minecraft:"):
            self.assertRegex(looks.colour_of(name), r"\A#[0-9a-f]{6}\Z")


if __name__ == "__main__":
    unittest.main()
