"""The folder of a plan: its files, and what its README.txt tells."""
import os
import tempfile
import unittest

from made import AIR, floor_box, plan_of, row_of_torches

import outputs
import torches

FILES = ["README.txt", "index.html", "x-torches.litematic", "x-torches.nbt", "x-torches.zip"]
CORNER = {"corner": (-20, 11, 7), "dimension": "minecraft:the_nether"}


def written(box, plan, verdict="accepted 1", told=None, notes=()):
    """The files that are written for a plan: their bytes by names."""
    with tempfile.TemporaryDirectory() as folder:
        outputs.write(folder, box, plan, [], bytes(len(box.cells)), verdict, told or {}, notes)
        found = {}
        for name in os.listdir(folder):
            with open(os.path.join(folder, name), "rb") as file:
                found[name] = file.read()
        return found


def readme(box, plan, verdict="accepted 1", told=None, notes=()):
    return written(box, plan, verdict, told, notes)["README.txt"].decode()


class Folder(unittest.TestCase):
    def test_it_has_these_files(self):
        self.assertEqual(sorted(written(floor_box([AIR], name="x"), row_of_torches(1))), FILES)

    def test_a_plan_gives_the_same_bytes_each_time(self):
        box, plan = floor_box([AIR] * 2, name="x", **CORNER), row_of_torches(2)
        self.assertEqual(written(box, plan), written(box, plan))

    def test_a_name_of_a_file_that_is_no_text_is_written_all_the_same(self):
        name = os.fsdecode(b"caf\xe9 \xff")
        files = sorted(written(floor_box([AIR], name=name), row_of_torches(1)))
        self.assertEqual([os.path.splitext(name)[1] for name in files], [".txt", ".litematic", ".nbt", ".zip", ".html"])


class Readme(unittest.TestCase):
    def test_it_names_every_file(self):
        text = readme(floor_box([AIR], name="x"), row_of_torches(1))
        for name in [*FILES[1:], "plan.txt", "plan.proof", "plan.check"]:
            self.assertIn(name, text)

    def test_a_stopped_plan_has_no_proof(self):
        text = readme(floor_box([AIR] * 3, name="x"), plan_of([(0, 1, 0, "floor"), (2, 1, 0, "floor")], 1), None)
        self.assertNotIn("plan.proof", text)
        self.assertIn("2 torches, safe; at least 1 is needed", text)

    def test_a_cave_without_dark_cells_needs_none(self):
        text = readme(floor_box([AIR], name="x"), row_of_torches(0), "accepted 0")
        self.assertTrue(text.startswith("Torches for x: none is needed.\n"))

    def test_it_tells_the_corner_and_where_the_files_belong(self):
        plan = plan_of([(3, 1, 0, "floor"), (5, 1, 0, "floor")])
        text = readme(floor_box([AIR] * 6, **CORNER), plan)
        self.assertIn("-20 11 7 in minecraft:the_nether", text)
        self.assertIn("origin to -20 11 7", text)
        self.assertIn("load it at -17 12 7", text)

    def test_without_a_corner_each_place_is_a_sum(self):
        plan = plan_of([(3, 1, 0, "floor"), (5, 1, 0, "floor")])
        text = readme(floor_box([AIR] * 6), plan)
        self.assertIn("X Y Z are its coordinates", text)
        self.assertIn("load it at X+3 Y+1 Z\n", text)
        self.assertIn("origin to X Y Z\n", text)
        text = readme(floor_box([AIR] * 60), plan_of([(3, 1, 0, "floor"), (55, 1, 0, "floor")]))
        self.assertIn("/place template minecraft:cave-torches X+3 Y+1 Z (", text)

    def test_notes_stand_in_it_and_on_the_page(self):
        files = written(floor_box([AIR]), row_of_torches(1), notes=["mind the <gap>"])
        self.assertIn("\nmind the <gap>\n", files["README.txt"].decode())
        self.assertIn('"notes":["mind the \\u003cgap\\u003e"]', files["index.html"].decode())

    def test_a_wide_structure_is_told(self):
        for count, is_wide in ((48, False), (49, True)):
            text = readme(floor_box([AIR] * count), row_of_torches(count))
            self.assertEqual("/place template" in text, is_wide)

    def test_parts_that_are_run_by_hand_are_told(self):
        lines = outputs.readme(floor_box([AIR] * 70_000), row_of_torches(70_000), None, {}, [])
        self.assertIn("torchplan:cave/place/1 to torchplan:cave/place/3", "".join(lines))
        self.assertNotIn("place/1", readme(floor_box([AIR]), row_of_torches(1)))

    def test_a_name_stays_in_its_line(self):
        self.assertTrue(readme(floor_box([AIR], name="a\nb\x1b"), row_of_torches(1)).startswith("Torches for a?b?: 1 "))

    def test_it_tells_how_it_was_made(self):
        told = {"command": "light x.nbt", "rule": "1.17", "headroom": 2, "table": "vanilla-1.18", "version": "0.6.0"}
        text = readme(floor_box([AIR]), row_of_torches(1), told=told)
        for words in ("light x.nbt", "rule 1.17", "headroom 2", "table vanilla-1.18", "torchplan 0.6.0"):
            self.assertIn(words, text)
        text = readme(floor_box([AIR]), row_of_torches(1), told={"files": {"cave.nbt": "the planned box"}})
        self.assertRegex(text, "cave.nbt +the planned box\n")
        self.assertNotIn("None", readme(floor_box([AIR]), row_of_torches(1), told={"table": None}))


class Load(unittest.TestCase):
    def test_what_to_carry_is_told_by_stacks(self):
        told = {
            0: "0 torches", 1: "1 torch", 64: "64 torches", 65: "65 torches (1 stack of 64 and 1)",
            128: "128 torches (2 stacks of 64)", 200: "200 torches (3 stacks of 64 and 8)",
        }
        for count, words in told.items():
            self.assertEqual(torches.load(count), words)


if __name__ == "__main__":
    unittest.main()
