"""What the page that plans by itself makes of files, beside what tools/user makes of the same ones: byte for byte, and
what is packed after it is unpacked, since zlib's versions pack otherwise. Its scripts are run by node."""
import base64
import gzip
import hashlib
import io
import itertools
import json
import os
import random
import shutil
import subprocess
import sys
import tempfile
import unittest
import zipfile

import paths
import random_caves
from made_schematics import litematic_file, places, some_states, sponge_file
from saved_worlds import Longs, nbt
from shipped import Apart
from test_brightening import levels_of
from test_schematic_files import STATES, litematic, region, sponge, vector
from test_shells import cave_of

import brightening
import edges
import names
import outputs
import plans
import sources
import tables
import toml_rows
import unknowns
import walks
from boxes import Box
from nbt_reader import text_of
from nbt_writer import Writer
from refusals import Refusal
from repository import EXAMPLES, TOOLS
from structure_files import read_structure
from structures import box_file
from versions import RELEASES

sys.path.insert(1, os.path.join(TOOLS, "targets"))
import pages

NODE = shutil.which("node")
HERE = os.path.dirname(os.path.abspath(__file__))


def read(path, mode="rb"):
    with open(path, mode) as file:
        return file.read()


def example(name):
    return os.path.join(EXAMPLES, name)


def text_of_bytes(data):
    return base64.b64encode(data).decode()


def asked_page(questions, program=None, version="0.0.0"):
    """The page's answers, in order. `program` is the file of its program, where it is needed."""
    with tempfile.TemporaryDirectory() as room:
        script = os.path.join(room, "page.js")
        with open(script, "w", encoding="utf-8") as file:
            file.write(pages.worker(version, pages.WORKER[:-1]))
        asked = json.dumps({"tables": pages.tables(), "questions": questions})
        words = [NODE, os.path.join(HERE, "page_answers.mjs"), script, *([program] if program else [])]
        ran = subprocess.run(words, input=asked.encode(), stdout=subprocess.PIPE, stderr=subprocess.PIPE)
    if ran.returncode:
        raise AssertionError(ran.stderr.decode(errors="replace"))
    return json.loads(ran.stdout)


def opened(name, data):
    """What a file is compared by."""
    if name.endswith(".zip"):
        with zipfile.ZipFile(io.BytesIO(data)) as archive:
            seen = [(one.filename, one.date_time, one.external_attr, archive.read(one)) for one in archive.infolist()]
            assert archive.testzip() is None
            return seen
    return gzip.decompress(data) if data[:2] == b"\x1f\x8b" else data


def files_by_light(box, plan_text, dark_text, levels, verdict, told, notes=()):
    """The files that `light` makes."""
    plan, dark = plans.read_plan(plan_text), plans.read_dark(dark_text)
    with tempfile.TemporaryDirectory() as folder:
        outputs.write(folder, box, plan, dark, levels, verdict, told, notes)
        return {name: read(os.path.join(folder, name)) for name in os.listdir(folder)}


def made_plan(rng, box, count):
    """Texts of a plan and of dark cells that name any cells: what is drawn and written, nobody judges."""
    places = [tuple(rng.randrange(side) for side in box.size) for _ in range(count)]
    hangs = [rng.choice(plans.HANGS) for _ in places]
    least = f" at-least {rng.randrange(1, count)}" if count > 1 and rng.random() < 0.5 else ""
    lines = [f"torches {count}{least}", f"dark {count}"]
    lines += [f"T {x} {y} {z} {hang}" for (x, y, z), hang in zip(places, hangs)]
    for y in sorted({place[1] for place in places}):
        lines.append(f"layer {y}")
        lines += ["".join(rng.choice("#.*T") for _ in range(box.size[0])) for _ in range(box.size[2])]
    dark = {tuple(rng.randrange(side) for side in box.size) for _ in range(count)}
    cells = [f"dark {len(dark)}", *(f"{x} {y} {z}" for x, y, z in sorted(dark))]
    return "".join(f"{line}\n" for line in lines), "".join(f"{line}\n" for line in cells)


@unittest.skipIf(NODE is None, "no node is here, so the page's scripts aren't run")
class PlanningPage(unittest.TestCase):
    maxDiff = 2000

    def compare_files(self, asked):
        """Asks the page for the files of each, and compares them with light's."""
        for ask, answer in zip(asked, asked_page([one["ask"] for one in asked])):
            self.assertIn("answer", answer, answer)
            seen = {name: base64.b64decode(data) for name, data in answer["answer"].items()}
            due = files_by_light(*ask["light"])
            self.assertEqual(set(seen), set(due))
            for name in due:
                self.assertEqual(opened(name, seen[name]), opened(name, due[name]), f"{ask['ask']['file']}: {name}")

    def question(self, data, name, plan, dark, verdict, told, corner=None, dimension=None, notes=()):
        """What the page is asked, of a cave with any levels, and what `light` gets of it."""
        box, rng = read_structure(data, name), random.Random(name)
        box.corner, box.dimension = corner, dimension
        levels = bytes(rng.randrange(16) for _ in box.cells)
        ask = {"what": "files", "file": "cave.nbt", "bytes": text_of_bytes(data), "name": name, "plan": plan,
               "dark": dark, "levels": text_of_bytes(levels), "verdict": verdict, "told": told, "corner": corner,
               "dimension": dimension, "notes": list(notes)}
        return {"ask": ask, "light": (box, plan, dark, levels, verdict, told, notes)}

    def test_files_of_the_examples(self):
        asked = []
        told = {"version": "0.0.0", "rule": "1.18", "headroom": "2", "table": "vanilla-1.21.toml"}
        for name in ("corridor", "hall", "mine", "slab-floor", "slab-proofed", "two-levels"):
            plan, dark = read(example(f"{name}.nbt.stdout"), "r"), read(example(f"{name}.nbt.dark"), "r")
            data = read(example(f"{name}.nbt"))
            asked.append(self.question(data, name, plan, dark, "accepted 2", told))
            more = {**told, "rule": "1.17", "files": {"table.toml": "the table of blocks that the plan goes by"}}
            corner = [-120, -41, 64]
            asked.append(self.question(data, f"{name} ü </script>\U0001f525", plan, dark, None, more, corner,
                                       "minecraft:the_nether", ["a note of <b> & more", "one more"]))
        self.compare_files(asked)

    def test_files_of_random_caves(self):
        told, asked = {"version": "0.0.0", "rule": "1.18", "headroom": "1", "table": "x"}, []
        names = ["", "a & b", "\u2028\x7f\x00", "q" * 130, "\U0001f525 \ufffe", "mine"]
        for seed in range(60):
            rng = random.Random(seed)
            size, states = random_caves.cave_of(rng)
            palette = list({(name, tuple(props.items())): (name, props) for name, props in states.values()}.values())
            entries = [(at, palette.index(state)) for at, state in states.items()]
            out = Writer()
            out.name(10, "")
            out.ints("size", size)
            out.compounds("palette", len(palette))
            for state in palette:
                out.state(*state)
            out.compounds("blocks", len(entries))
            for at, state in entries:
                out.block(at, state)
            if rng.random() < 0.7:
                out.integer("DataVersion", rng.choice(RELEASES).data_version + rng.randrange(-1, 2))
            out.end()
            box = read_structure(out.file(), "x")
            if 0 in box.size:
                continue
            plan, dark = made_plan(rng, box, rng.randrange(0, 200))
            corner = [rng.randrange(-(10**6), 10**6) for _ in range(3)] if rng.random() < 0.5 else None
            verdict = rng.choice([None, "accepted 3"])
            asked.append(self.question(out.file(), rng.choice(names), plan, dark, verdict, told, corner,
                                       corner and "minecraft:overworld"))
        self.compare_files(asked)

    def compare_long_plan(self, corner):
        """A plan of more commands than a function takes."""
        size = (128, 2, 128)
        lines = [f"T {x} 1 {z} floor" for z in range(128) for x in range(128)] * 2
        plan = "\n".join([f"torches {len(lines)}", "dark 0", *lines]) + "\n"
        out = Writer()
        out.name(10, "")
        out.ints("size", size)
        out.compounds("palette", 0)
        out.compounds("blocks", 0)
        out.end()
        told = {"version": "1", "rule": "1.18", "headroom": "2", "table": "x"}
        self.compare_files([self.question(out.file(), "x", plan, "dark 0\n", "accepted 1", told, corner)])

    def test_a_plan_of_more_commands_than_a_function_takes(self):
        self.compare_long_plan(None)

    def test_such_a_plan_by_the_worlds_coordinates(self):
        self.compare_long_plan([1, 2, 3])

    def test_structures_are_read_and_written_alike(self):
        found = [read(example(f"{name}.nbt")) for name in ("corridor", "two-levels")]
        for seed in range(300):
            rng = random.Random(seed)
            found.append(random_caves.structure_file(rng, *random_caves.cave_of(rng, own=0.2))[0])
        asked = [{"what": "cave", "file": "x.nbt", "bytes": text_of_bytes(data)} for data in found]
        for data, answer in zip(found, asked_page(asked)):
            try:
                box = read_structure(data, "x")
                due = {"size": list(box.size), "cells": box.cells, "version": box.data_version,
                       "palette": [[name, props] for name, props in box.palette]}
            except Exception:
                due = None
            self.assertEqual(answer["answer"]["box"], due)

    def by_light(self, file, data):
        """The cave that `light` reads in a file, or what it refuses it by, without the file's path."""
        with tempfile.TemporaryDirectory() as room:
            path = os.path.join(room, file)
            with open(path, "wb") as out:
                out.write(data)
            try:
                return sources.read_file(path, sources.name_of_file(path))
            except Refusal as why:
                return str(why)[len(path) + 2 :]

    def read_alike(self, file, data, size, states, version):
        """A schematic, of which the page makes this box: states by positions, the others without an entry. What `light`
        makes of it is the same structure, byte for byte."""
        [answer] = asked_page([{"what": "cave", "file": file, "bytes": text_of_bytes(data)}])
        self.assertIn("answer", answer, answer)
        made = base64.b64decode(answer["answer"]["data"])
        seen = read_structure(made, "x")
        self.assertEqual((seen.size, seen.data_version), (size, version))
        at = {place: seen.state_at(*place) for place in places(size) if seen.state_at(*place) is not None}
        self.assertEqual(at, states)
        cave = self.by_light(file, data)
        self.assertEqual(made, box_file(cave.box))
        self.assertEqual((answer["answer"]["name"], answer["answer"]["isMade"]), (cave.box.name, cave.data is None))

    def test_schematics_of_litematica(self):
        for seed in range(12):
            rng = random.Random(seed)
            regions, states = {}, {}
            for number in range(rng.choice([1, 1, 2])):
                low, size = [rng.randrange(-9, 9) for _ in range(3)], tuple(rng.randrange(1, 7) for _ in range(3))
                palette = some_states(rng, rng.choice([1, 2, 3, 4, 5, 17, 33]))
                indices = [rng.randrange(len(palette)) for _ in places(size)]
                regions[f"region {number}"] = low, size, palette, indices
                for (x, y, z), index in zip(places(size), indices):
                    states[x + low[0], y + low[1], z + low[2]] = palette[index]
            corner = [min(place[axis] for place in states) for axis in range(3)]
            high = [max(place[axis] for place in states) for axis in range(3)]
            moved = {tuple(at - least for at, least in zip(place, corner)): state for place, state in states.items()}
            data = litematic_file(rng, regions)
            size = tuple(last - least + 1 for last, least in zip(high, corner))
            self.read_alike("my cave.litematic", gzip.compress(data), size, moved, 3700)

    def test_schematics_of_sponge(self):
        for seed in range(12):
            rng, version = random.Random(seed), 2 + seed % 2
            size, palette = tuple(rng.randrange(1, 9) for _ in range(3)), some_states(rng, rng.choice([1, 2, 130, 200]))
            indices = [rng.randrange(len(palette)) for _ in places(size)]
            states = {place: palette[index] for place, index in zip(places(size), indices)}
            data = gzip.compress(sponge_file(version, size, palette, indices))
            self.read_alike("cave.schem", data, size, states, 3700)

    def test_schematics_that_are_damaged(self):
        whole = region((0, 0, 0), (4, 4, 4), [STATES[0]] * 64, STATES[:2])
        changes = [{"BlockStates": Longs([1])}, {"Size": vector((0, 1, 1))}, {"Size": vector((129, 1, 1))},
                   {"Size": vector((-128, 64, 64))}, {"BlockStates": Longs([3, 0])}, {"Position": 5}, {"Size": 1},
                   {"BlockStatePalette": []}, {"BlockStatePalette": [{"Name": 3}]}]
        found = {f"{at}.litematic": litematic({"a": {**whole, **change}}) for at, change in enumerate(changes)}
        found["none.litematic"] = litematic({})
        odd, wide = [("minecraft:stone[a", {})], STATES[:1]
        for version in (1, 2, 3, 4):
            found[f"{version}.schem"] = sponge(version, (1, 1, 1), wide, wide)
            found[f"few {version}.schem"] = sponge(version, (2, 1, 1), wide, wide)
            found[f"wide {version}.schem"] = sponge(version, (200, 1, 1), wide * 200, wide)
            found[f"odd {version}.schem"] = sponge(version, (1, 1, 1), odd, odd)
            found[f"gap {version}.schem"] = sponge(version, (2, 1, 1), STATES[:2], STATES[:2], [7, 300])
        for seed in range(40):
            rng, data = random.Random(seed), bytearray(gzip.decompress(found["2.schem"]))
            data[rng.randrange(len(data))] = rng.randrange(256)
            found[f"changed {seed}.schem"] = bytes(data)
        self.compare_reading(found)

    def compare_reading(self, found):
        """Compares what the page reads in files with what `light` reads: the structure, or the fault's words."""
        asked = [{"what": "cave", "file": file, "bytes": text_of_bytes(data)} for file, data in found.items()]
        for (file, data), answer in zip(found.items(), asked_page(asked)):
            due = self.by_light(file, data)
            if isinstance(due, str):
                seen = [answer.get(name) for name in ("kind", "hasPlace", "fault")]
                self.assertEqual(seen, ["Refusal", False, due], file)
                continue
            self.assertIn("answer", answer, f"{file}: {answer}")
            structure = box_file(due.box) if due.data is None else due.data
            self.assertEqual(base64.b64decode(answer["answer"]["data"]), structure, file)
            self.assertEqual(answer["answer"]["box"] is None, due.box is None, file)

    def test_files_of_other_kinds(self):
        found = {
            "r.0.0.mca": bytes(8192), "x.zip": b"PK\3\4", "x.mcstructure": b"", "my.mcworld": b"PK\3\4...",
            "level.dat": gzip.compress(nbt({"Data": {"LevelName": "x"}})), "c.nbt": nbt({"xPos": 1}),
            "old.schematic": gzip.compress(nbt({"Materials": "Alpha", "Blocks": b"\1", "Data": b"\0"})),
            "me.dat": gzip.compress(nbt({"Pos": [0.5, 1.0, 2.0], "Inventory": []})),
        }
        asked = [{"what": "cave", "file": name, "bytes": text_of_bytes(data)} for name, data in found.items()]
        for (name, data), answer in zip(found.items(), asked_page(asked)):
            due = self.by_light(name, data).split(":")[0].split(", which isn't")[0]
            self.assertEqual((answer["kind"], answer["hasPlace"]), ("Refusal", True), name)
            self.assertTrue(answer["fault"].startswith(f"This is {due}."), f"{answer['fault']} tells {due}")
        cut = gzip.compress(read(example("hall.nbt")))[:-9]
        answer, = asked_page([{"what": "cave", "file": "hall.nbt", "bytes": text_of_bytes(cut)}])
        self.assertEqual(answer["fault"], "its packed data is damaged")

    def test_what_a_cave_is_called(self):
        due = {"hall.nbt": "hall", "hall.nbt.gz": "hall", ".nbt": ".nbt", "a.b.nbt": "a.b", "x.schem": "x", "q": "q",
               "x.litematic.nbt": "x", "x.nbt.nbt": "x.nbt", "X.NBT": "X.NBT"}
        self.assertEqual(list(map(sources.name_of_file, due)), list(due.values()))
        asked = [{"what": "cave", "file": name, "bytes": text_of_bytes(b"x")} for name in due]
        self.assertEqual([answer["answer"]["name"] for answer in asked_page(asked)], list(due.values()))

    def test_what_its_files_and_functions_are_called(self):
        found = ["", "Hall", "my cave.2", "a/b", "\U0001f525", "ÜBER", "x" * 60, "x" * 61, "\u0130", "a  b", "N_W-1"]
        answers = asked_page([{"what": "name", "name": name} for name in found])
        self.assertEqual([answer["answer"] for answer in answers], list(map(names.plain, found)))

    def test_walks(self):
        found = [[]]
        for seed in range(60):
            rng = random.Random(seed)
            wide, tall = rng.choice([3, 20, 60]), rng.choice([1, 2, 12])
            count, sides = rng.randrange(1, 50), (wide, tall, wide)
            spots = {tuple(map(rng.randrange, sides)) for _ in range(count)}
            found.append([(*at, rng.choice(plans.HANGS)) for at in sorted(spots)])
        answers = asked_page([{"what": "walk", "torches": torches} for torches in found])
        for torches, answer in zip(found, answers):
            due = walks.in_order([plans.Torch(*torch) for torch in torches])
            self.assertEqual(answer["answer"], [list(torch) for torch in due])

    def test_torches_that_are_moved(self):
        asked, due = [], []
        for name in ("hall", "mine", "two-levels", "corridor"):
            data = read(example(f"{name}.nbt"))
            box = read_structure(data, name)
            plan = plans.read_plan(read(example(f"{name}.nbt.stdout"), "r"))
            dark = plans.read_dark(read(example(f"{name}.nbt.dark"), "r"))
            cells = [box.number(*at) for at in dark]
            regions = [(cells, [box.number(*torch[:3]) for torch in plan.torches])]
            rows = tables.vanilla_rows(tables.chosen(box.data_version).data)
            base = levels_of(box, cave_of(box, rows, 2, 1))
            for need in (1, 8):
                moved = brightening.brightened(box, Apart(rows), base, regions, need)
                due.append(sorted([number, list(torch)] for number, torch in moved.items()))
                asked.append({"what": "bright", "file": "x.nbt", "bytes": text_of_bytes(data), "regions": regions,
                              "levels": text_of_bytes(base), "need": need})
        self.assertTrue(any(due))
        for moved, answer in zip(due, asked_page(asked)):
            self.assertEqual(sorted(answer["answer"]), moved)

    def test_what_is_told_of_the_edge(self):
        told = "3 west, 12 north, 1 below, 2 above; they count as nothing"
        rows = Apart(tables.vanilla_rows(tables.chosen(None).data))
        data = {name: read(example(f"{name}.nbt")) for name in ("hall", "corridor")}
        sky = box_file(Box((2, 1, 1), [("minecraft:air", {})], [0, 0]))
        asked = [(data["hall"], told, [], False), (data["corridor"], "1 east", [[1, 1, 1]], True),
                 (sky, told, [], False), (sky, told, [], True), (sky, None, [], True)]
        answers = asked_page([{"what": "edge", "file": "x.nbt", "bytes": text_of_bytes(cave), "edge": edge,
                               "dark": dark, "isUnread": unread} for cave, edge, dark, unread in asked])
        for (cave, edge, dark, unread), answer in zip(asked, answers):
            # where the page can't read the table it tells of the edge as if a cell were dark
            due = edges.lines(edge, read_structure(cave, "x"), rows, dark or unread)
            self.assertEqual(answer["answer"], due)

    def test_tables_of_unknown_blocks(self):
        owns = [None, "", '[[row]]\nname = "a:b"\nopacity = 3\n', 'row = [\n    { name = "a:b", opacity = 1 },\n]\n']
        told = ["a:b", "mod:some/block", "not a name", "c:d"]
        answers = asked_page([{"what": "unknown", "names": told, "own": own} for own in owns])
        for own, answer in zip(owns, answers):
            self.assertEqual(answer["answer"], unknowns.table_for(told, own and own.encode()).decode())

    def test_texts_of_any_bytes(self):
        rng = random.Random(7)
        pieces = [b"a", b"\xc3\xbc", b"\xc0\x80", b"\xed\xa0\xbd", b"\xed\xb4\xa5", "\U0001f525\u20ac".encode()]
        found = [b"", b"\xef\xbb\xbfa", b"\xe1\x80", pieces[3] + pieces[4], pieces[4] + pieces[3]]
        found += [b"".join(rng.choice(pieces) for _ in range(rng.randrange(6))) for _ in range(200)]
        found += [rng.randbytes(rng.randrange(1, 4)) for _ in range(300)]
        answers = asked_page([{"what": "text", "bytes": text_of_bytes(data)} for data in found])
        for data, answer in zip(found, answers):
            self.assertEqual(answer["answer"], text_of(data), data)

    def test_sums(self):
        found = [bytes(range(256)) * count + b"x" * rest for count in (0, 1, 3) for rest in (0, 1, 55, 56, 63, 64)]
        for data, answer in zip(found, asked_page([{"what": "sum", "bytes": text_of_bytes(data)} for data in found])):
            self.assertEqual(answer["answer"], hashlib.sha256(data).hexdigest())

    def test_tables(self):
        mine = '[[row]]\nname = "a:b"\nopacity = 3\nwhen = { half = "top" }\nput = true\n'
        own = 'row = [\n    # steady: { name = "a:c", opacity = 0 },\n    { name = "a:b", opacity = 1 },\n]\n'
        versions = [None, 2566, 2724, 2860, 3104, 3105, 4671]
        asked = list(itertools.product(versions, (None, mine, own), (False, True)))
        with tempfile.TemporaryDirectory() as room:
            path = os.path.join(room, "mine.toml")
            questions = [{"what": "table", "version": version, "isSteady": steady,
                          "own": text and {"name": "mine.toml", "text": text}} for version, text, steady in asked]
            for (version, text, steady), answer in zip(asked, asked_page(questions)):
                if text is not None:
                    with open(path, "w", encoding="utf-8") as file:
                        file.write(text)
                due = tables.chosen(version, text and tables.own_table(path), steady)
                self.assertEqual(answer["answer"], {"name": due.name, "text": due.data.decode()})

    def test_rows_of_the_vanilla_tables(self):
        chosen = [tables.chosen(version, None, steady).data for version in (2724, 4671) for steady in (False, True)]
        answers = asked_page([{"what": "rows", "text": data.decode()} for data in chosen])
        for data, answer in zip(chosen, answers):
            self.assertEqual(answer["answer"], "".join(map(toml_rows.text_of, tables.vanilla_rows(data))))


if __name__ == "__main__":
    unittest.main()
