"""Plans as the program prints them (docs/FORMATS.md, "Plan", "Dark text"), and make-function, which turns them into
commands."""
import os
import subprocess
import sys
import unittest

import made  # it makes the modules of tools/user known
from repository import EXAMPLES, TOOLS

import plans
from refusals import Refusal

MAKE_FUNCTION = os.path.join(TOOLS, "user", "make-function")
PLAN = """torches 2 at-least 1
dark 5
T 0 1 2 floor
T 3 0 0 west
layer 0
...<
*##.
layer 1
####
T.#.
"""


def make_function(plan, *words):
    ran = subprocess.run([sys.executable, MAKE_FUNCTION, *words], input=plan, capture_output=True, text=True)
    return ran.returncode, ran.stdout, ran.stderr


class Reading(unittest.TestCase):
    def test_a_plan_is_read_whole(self):
        plan = plans.read_plan(PLAN)
        self.assertEqual(plan.torches, [(0, 1, 2, "floor"), (3, 0, 0, "west")])
        self.assertEqual((plan.dark, plan.at_least), (5, 1))
        self.assertEqual(plan.layers, {0: ["...<", "*##."], 1: ["####", "T.#."]})

    def test_the_examples_are_read(self):
        for name in ("corridor", "hall", "mine", "slab-floor", "slab-proofed", "two-levels"):
            with open(os.path.join(EXAMPLES, f"{name}.nbt.stdout"), encoding="utf-8") as file:
                plan = plans.read_plan(file.read())
            with open(os.path.join(EXAMPLES, f"{name}.nbt.dark"), encoding="utf-8") as file:
                self.assertEqual(len(plans.read_dark(file.read())), plan.dark)
            self.assertEqual(sorted(plan.layers), sorted({torch.y for torch in plan.torches}))
            self.assertIsNone(plan.at_least)
            for torch in plan.torches:
                self.assertIn(plan.layers[torch.y][torch.z][torch.x], "T^>v<")

    def test_other_texts_are_no_plans(self):
        for text in ("", "dark 5\n", "torches 1\ndark 1\nT 0 0 0 ceiling\n"):
            self.assertRaises(Refusal, plans.read_plan, text)
        self.assertRaises(Refusal, plans.read_dark, "torches 1\n")

    def test_levels_are_read(self):
        self.assertEqual(list(plans.read_levels("levels 3 1 2\n0e9\nf01\n")), [0, 14, 9, 15, 0, 1])
        self.assertEqual(list(plans.read_levels("levels 0 4 4\n")), [])

    def test_other_texts_are_no_levels(self):
        for text in ("", "dark 0\n", "levels 3 1 1\n0e\n", "levels 1 1 1\n00\n", "levels 1 1 1\ng\n", "levels 1 1 1\n\x10\n"):
            self.assertRaises(Refusal, plans.read_levels, text)


class Commands(unittest.TestCase):
    def test_torches_are_set_relative_or_by_coordinates(self):
        self.assertEqual(make_function(PLAN)[:2], (
            0, "setblock ~ ~1 ~2 minecraft:torch\nsetblock ~3 ~ ~ minecraft:wall_torch[facing=west]\n"
        ))
        self.assertEqual(make_function(PLAN, "--at", "-3", "64", "10")[:2], (
            0, "setblock -3 65 12 minecraft:torch\nsetblock 0 64 10 minecraft:wall_torch[facing=west]\n"
        ))

    def test_they_are_taken_away(self):
        lines = "setblock ~ ~1 ~2 minecraft:air\nsetblock ~3 ~ ~ minecraft:air\n"
        self.assertEqual(make_function(PLAN, "--undo")[:2], (0, lines))

    def test_what_to_carry_is_told(self):
        self.assertEqual(make_function(PLAN, "--carry")[:2], (0, "2 torches\n"))

    def test_what_is_no_plan_is_told_in_a_line(self):
        for text in ("", "dark 3\n", "torches 1\ndark x\n", "torches 1\ndark 1\nT 1 2\n", "torches 1 at-least\n"):
            status, out, err = make_function(text)
            self.assertEqual((status, out, err.count("\n")), (1, "", 1), text)
            self.assertTrue(err.startswith("make-function: no plan: "), err)


if __name__ == "__main__":
    unittest.main()
