"""The page's scripts, run by Node where it is there: what they read of the data, and how they list torches."""
import json
import re
import shutil
import subprocess
import unittest

from made import AIR, STONE, floor_box, plan_of
import page

NODE = shutil.which("node")


def part(name):
    """A script of the page, which may stand behind others."""
    return page.part(name).replace('"use strict";', "")


# As much of a browser as the page needs: elements with properties, children and listeners; nothing is drawn.
BROWSER = """
class Element {
  constructor(tag, id = "") {
    Object.assign(this, { tag, id, children: [], listeners: {}, style: {}, dataset: {}, value: "", checked: true,
      clientWidth: 400, clientHeight: 300, scrollHeight: 0, scrollTop: 0 });
  }
  append(...more) {
    this.children.push(...more);
    more.filter((one) => one instanceof Element).forEach((one) => { one.parent = this; });
  }
  replaceChildren(...all) { this.children = []; this.append(...all); }
  get childElementCount() { return this.children.length; }
  setAttribute(name, value) { this[name] = value; }
  addEventListener(name, listener) { this.listeners[name] = listener; }
  closest(selector) {
    if (selector.split(", ").includes(this.tag)) return this;
    return this.parent ? this.parent.closest(selector) : null;
  }
  getContext() {
    const made = (name) => () => (name === "createImageData" ? { data: new Uint8Array(1e6) } : undefined);
    return new Proxy({}, { get: (_, name) => made(name), set: () => true });
  }
  getBoundingClientRect() { return { top: 0, bottom: 0, left: 0, height: 0, width: 0 }; }
  setPointerCapture() {}
  get classList() { return { toggle: (name, on) => { this[`is-${name}`] = on; }, add() {}, remove() {} }; }
  get text() {
    const own = this.textContent || "";
    return own + this.children.map((child) => (typeof child === "string" ? child : child.text)).join("");
  }
}
const ids = {}, heard = {};
const document = {
  createElement: (tag) => new Element(tag), addEventListener: (name, listener) => { heard[name] = listener; },
  getElementById: (id) => ids[id],
};
const window = { innerWidth: 400, innerHeight: 600, devicePixelRatio: 1, addEventListener() {}, confirm: () => true,
  scrolled: 0, scrollBy: (_, down) => { window.scrolled += down; } };
const matchMedia = () => ({ matches: false, addEventListener() {} });
const frames = [], requestAnimationFrame = (act) => frames.push(act);
class ResizeObserver { observe() {} }
const kept = {};
const localStorage = { getItem: (key) => kept[key] || null, setItem: (key, value) => { kept[key] = value; } };
const all = (element, tag) => [...(element.tag === tag ? [element] : []),
  ...element.children.filter((child) => child instanceof Element).flatMap((child) => all(child, tag))];
"""


@unittest.skipUnless(NODE, "there is no node: the page's scripts aren't run")
class Scripts(unittest.TestCase):
    def run_node(self, *parts):
        """What a script prints, as JSON."""
        ran = subprocess.run([NODE, "-"], input="\n".join([BROWSER, *parts]), capture_output=True, text=True)
        self.assertEqual((ran.returncode, ran.stderr), (0, ""))
        return json.loads(ran.stdout)

    def run_scripts(self, data, script):
        """What a script prints behind those of the page but the last, which have the page's data."""
        names = [name for name in page.SCRIPTS if name != "page.js"]
        return self.run_node(*map(part, names), f"const cave = caveOf({json.dumps(data)});", script)

    def run_page(self, data, script):
        """What a script prints behind all of the page, whose elements have the names that they have there."""
        elements = re.findall(r'<(\w+)[^>]* id="([^"]+)"', page.part("page.html"))
        made = [f"ids['{name}'] = new Element('{tag}', '{name}');" for tag, name in elements]
        made.append(f"ids.data.textContent = {json.dumps(json.dumps(data))};")
        made.append("new Element('aside').append(ids.list);")
        made.append("new Element('section').append(ids.picture);")
        made.append("new Element('label').append(ids.light);")
        return self.run_node(*made, *map(part, page.SCRIPTS), script)

    def data(self, torches, **more):
        box = floor_box([AIR, ("minecraft:torch", {}), AIR, AIR, STONE], name="x", corner=(-5, 60, 7))
        levels = bytes(range(10))
        return page.data_of(box, plan_of(torches), [(0, 1, 0), (3, 1, 0)], levels, "accepted 1", **more)

    def test_cells_are_what_python_wrote(self):
        told = self.run_scripts(self.data([(3, 1, 0, "floor")], away=[(1, 1, 0)]), """
            console.log(JSON.stringify([[0, 1, 2, 3, 4].map((x) => cave.stateAt(x, 1, 0).name), [...cave.levels],
              [...cave.dark], cave.stateAt(0, 2, 0), cave.worldly(1, 1), cave.isTakenAway(1, 1, 0),
              cave.isTakenAway(0, 1, 0),
              cave.torchAt(3, 1, 0).index, cave.inLayer(0).length]));""")
        names = ["air", "torch", "air", "air", "stone"]
        dark = [0] * 5 + [1, 0, 0, 1, 0]
        self.assertEqual(told, [names, list(range(10)), dark, None, 61, True, False, 0, 0])

    def test_the_list_is_in_the_order_of_the_walk_by_parts_of_a_layer(self):
        torches = [(0, 1, 0, "floor"), (2, 1, 0, "floor"), (3, 0, 0, "west"), (4, 1, 0, "floor")]
        told = self.run_scripts(self.data(torches, apart=1, away=[(1, 1, 0)], total=5), """
            const holder = document.createElement("div"), ticked = [];
            const acts = { ticked: (torch, done) => ticked.push([torch.index, done]), chosen() {} };
            const list = new List(holder, null, cave, acts);
            const boxes = all(holder, "input");
            boxes[2].checked = true;
            boxes[2].listeners.change();
            list.update(new Set([0, 2]), cave.torches[1]);
            console.log(JSON.stringify([all(holder, "h2").map((head) => head.text),
              all(holder, "button").map((button) => button.text), ticked,
              list.items.map(({ item }) => [item["is-done"], item["is-chosen"]])]));""")
        heads, buttons, ticked, items = told
        self.assertEqual(heads, ["Take away 1", "Layer 1 (y 61)1 of 2", "Layer 0 (y 60)1 of 1",
                                 "Where nobody gets to on foot", "Layer 1 (y 61)0 of 1"])
        self.assertEqual([button.split(".")[0] for button in buttons], ["1", "2", "3", "4"])
        self.assertTrue(buttons[0].startswith("1. −5 61 7"), buttons[0])
        self.assertEqual(ticked, [[2, True]])
        self.assertEqual(items, [[True, False], [False, True], [True, False], [False, False]])

    def test_a_tap_means_the_nearest_torch_within_a_finger(self):
        told = self.run_scripts(self.data([(0, 1, 0, "floor"), (3, 1, 0, "floor")]), """
            const view = { left: 100, top: 50, scale: 10 };
            const at = (px, py) => (nearest(cave.inLayer(1), view, px, py) || { index: null }).index;
            const taps = [[105, 55], [94, 66], [105, 77], [105, 78], [122, 55], [300, 55]];
            console.log(JSON.stringify(taps.map(([px, py]) => at(px, py))));""")
        self.assertEqual(told, [0, 0, 0, None, 1, None])

    def test_a_finger_that_leaves_the_map_leaves_its_cell_told(self):
        told = self.run_scripts(self.data([]), """
            const over = [], canvas = new Element("canvas");
            new View(canvas, cave, { changed() {}, tapped() {}, over: (cell) => over.push(cell) });
            for (const pointerType of ["touch", "pen", "mouse"]) canvas.listeners.pointerleave({ pointerType });
            console.log(JSON.stringify(over));""")
        self.assertEqual(told, [None])

    def test_cells_where_mobs_could_spawn_have_a_colour_of_their_own(self):
        told = self.run_scripts(self.data([]), """
            const theme = THEMES.dark, look = (dark) => ({ light: false, dark, below: false });
            const at = (x, dark) => colourAt(cave, x, 1, 0, look(dark), theme).map(Math.round);
            console.log(JSON.stringify([at(0, true), at(0, false), at(2, true), theme.room, theme.spawn]));""")
        spawned, plain, other, room, spawn = told
        self.assertEqual((plain, other), (room, room))
        for value, low, high in zip(spawned, *zip(*map(sorted, zip(room, spawn)))):
            self.assertTrue(low < value < high, told)

    def test_the_square_about_the_chosen_torch_shows_the_torch_where_cells_are_small(self):
        told = self.run_scripts(self.data([]), """
            const drawn = [], context = { strokeRect: (...square) => drawn.push(square) };
            for (const scale of [4, 20]) {
              drawOutline(context, { left: 100, top: 50, scale }, { x: 3, z: 1 }, "#fff", CHOSEN);
              drawOutline(context, { left: 100, top: 50, scale }, { x: 3, z: 1 }, "#fff");
            }
            console.log(JSON.stringify(drawn));""")
        self.assertEqual(told, [[107, 49, 14, 14], [112, 54, 4, 4], [160, 70, 20, 20], [160, 70, 20, 20]])

    def test_the_overview_draws_each_layer_once_it_is_open_and_a_click_goes_there(self):
        torches = [(0, 1, 0, "floor"), (2, 1, 0, "floor")]
        told = self.run_page(self.data(torches), """
            const drawn = () => { while (frames.length > 0) frames.shift()(); };
            const maps = ids.maps.children, stale = () => [...overview.stale].sort();
            drawn();
            const before = stale();
            ids.overview.open = true;
            ids.overview.listeners.toggle();
            drawn();
            const told = [before, stale(), maps.map((map) => [map.text, map["is-here"]])];
            maps[0].listeners.click();
            told.push(state.y, maps.map((map) => map["is-here"]));
            tick(cave.torches[0], true);
            told.push(stale());
            drawn();
            ids.light.listeners.change();
            told.push(stale());
            console.log(JSON.stringify(told));""")
        self.assertEqual(told, [
            [0, 1], [], [["y 60no torch", False], ["y 612 torches", True]], 0, [True, False], [1], [0, 1]])

    def test_the_list_follows_the_layer_and_the_layer_what_is_chosen(self):
        torches = [(0, 1, 0, "floor"), (3, 0, 0, "west"), (2, 1, 0, "floor")]
        told = self.run_page(self.data(torches), """
            const told = [], revealed = [];
            list.reveal = (torch) => revealed.push(torch.index);
            const now = (act) => { revealed.length = 0; act(); told.push([state.y, [...revealed]]); };
            now(() => ids.lower.listeners.click());
            now(() => ids.higher.listeners.click());
            now(() => list.items[1].button.listeners.click());
            now(() => ids.maps.children[1].listeners.click());
            console.log(JSON.stringify(told));""")
        self.assertEqual(told, [[0, [1]], [1, [0]], [0, [1]], [1, []]])

    def test_the_list_scrolls_within_its_side_or_on_a_phone_below_the_map(self):
        told = self.run_page(self.data([(0, 1, 0, "floor"), (3, 0, 0, "west")]), """
            const line = list.items[1].item, aside = ids.list.parent, map = ids.picture.parent, told = [];
            const put = (element, top, height) => {
              element.getBoundingClientRect = () => ({ top, bottom: top + height, left: 0, height, width: 0 });
            };
            [[aside, 0, 500], [line, 800, 50], [map, 0, 350]].forEach((each) => put(...each));
            Object.assign(aside, { scrollHeight: 2000, clientHeight: 500 });
            list.reveal(cave.torches[1]);
            told.push(aside.scrollTop, window.scrolled);
            aside.scrollHeight = 500;
            for (const top of [700, 380]) { // the list is below the window, and then in sight
              put(ids.list, top, 2000);
              list.reveal(cave.torches[1]);
              told.push(window.scrolled);
            }
            console.log(JSON.stringify([...told, aside.scrollTop]));""")
        self.assertEqual(told, [550, 0, 0, 325, 550])

    def test_the_legend_has_what_the_box_has(self):
        signs = """console.log(JSON.stringify(all(ids.signs, "li").map((sign) => sign.text)));"""
        data = self.data([])
        plain = self.run_page(data, signs)
        self.assertIn("dark before: mobs could spawn there", plain)
        self.assertNotIn("water", plain)
        data["palette"] += [["water", "water", "#3d63c4"], ["lava", "lava", "#e8691b"], ["rail", "thing", "#7c7d80"]]
        self.assertEqual(self.run_page(data, signs), [*plain, "water", "lava", "another block, in its own colour"])

    def test_no_light_and_the_faintest_differ_in_every_look(self):
        told = self.run_scripts(self.data([]), """
            console.log(JSON.stringify(Object.values(THEMES).map((theme) => lit(theme.room, 1, theme).map((value, at) =>
              value - lit(theme.room, 0, theme)[at]))));""")
        for steps in told:
            self.assertGreater(sum(map(abs, steps)), 60)

    def test_the_page_runs_and_its_buttons_and_keys_do_what_they_say(self):
        torches = [(0, 1, 0, "floor"), (2, 1, 0, "floor"), (3, 0, 0, "west")]
        told = self.run_page(self.data(torches, notes=["mind the gap"]), """
            const told = [], click = (id) => ids[id].listeners.click();
            const press = (key, target = ids.picture) => heard.keydown({ key, target, preventDefault() {} });
            const drawn = () => { while (frames.length > 0) frames.shift()(); };
            const chosen = () => state.chosen && state.chosen.index;
            const now = () => drawn() || told.push([state.y, chosen(), ids.placed.text, ids.here.text]);
            now();
            click("next"); now();
            click("here"); now();
            press("ArrowRight"); press("ArrowRight"); now();
            press("Enter"); now();
            press("ArrowUp"); now();
            press("ArrowDown", list.items[0].button); now();
            click("previous"); now();
            all(ids.list, "input")[0].checked = false;
            all(ids.list, "input")[0].listeners.change(); now();
            told.push(ids.notes.text, ids.facts.text, new Set(all(ids.signs, "li").map((sign) => sign.text)).size);
            console.log(JSON.stringify(told));""")
        *states, notes, facts, signs = told
        self.assertEqual(states, [
            [1, None, "0 of 3 placed", "Placed"], [1, 0, "0 of 3 placed", "Placed"],
            [1, 0, "1 of 3 placed", "Not placed"], [0, 2, "1 of 3 placed", "Placed"],
            [0, 2, "2 of 3 placed", "Not placed"], [1, 2, "2 of 3 placed", "Not placed"],
            [1, 2, "2 of 3 placed", "Not placed"], [1, 1, "2 of 3 placed", "Placed"],
            [1, 1, "1 of 3 placed", "Placed"]])
        self.assertEqual(notes, "mind the gap")
        self.assertIn("3 torches", facts)
        self.assertGreater(signs, 8)

    def test_ticks_are_kept_and_what_is_no_torch_is_dropped(self):
        told = self.run_scripts(self.data([(0, 1, 0, "floor"), (2, 1, 0, "floor")]), """
            const ticks = new Ticks("key", 2);
            ticks.set(1, true);
            kept.other = "[0, 7, -1, 1.5]";
            console.log(JSON.stringify([[...new Ticks("key", 2).done], [...new Ticks("other", 2).done]]));""")
        self.assertEqual(told, [[1], [0]])


if __name__ == "__main__":
    unittest.main()
