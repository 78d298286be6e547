"""The command `light`, with a program in the planner's place that answers what the test says."""
import contextlib
import gzip
import importlib.machinery
import importlib.util
import io
import os
import resource
import shutil
import signal
import stat
import subprocess
import sys
import tempfile
import time
import unittest
import unittest.mock
import zipfile

import paths
import answers
from packed_program import unpacked
from program import lines_of
from repository import EXAMPLES, TOOLS, TOP
from saved_worlds import V1_16, V1_18, V1_21, Saved, chunk, nbt
from small_nbt import read_packed
from test_page import data_of, unrun
from test_schematic_files import sponge

SCRIPT = os.path.join(TOOLS, "user", "light")
LOADER = importlib.machinery.SourceFileLoader("light", SCRIPT)
LIGHT = importlib.util.module_from_spec(importlib.util.spec_from_loader("light", LOADER))
LOADER.exec_module(LIGHT)
PLAIN = ["README.txt", "index.html", "plan.check", "plan.proof", "plan.txt"]
FILES = [*PLAIN, "room-torches.litematic", "room-torches.nbt", "room-torches.zip"]
# Answers each command by the files beside it, the first time by others where there are such, and writes down the words
# that it got, each with a mark behind it. The program itself tells rows, which aren't written down; and without a file
# of levels it tells them, of the cave alone where the torches of an answer can't stand there.
PLANNER = """#!/bin/sh
at='{folder}'
[ "$1" != rows ] || exec '{program}' "$@"
for word; do printf '%s@' "$word"; done >>"$at/calls"
echo >>"$at/calls"
[ "$1" = --version ] || {{ cp "$2" "$at/read.$$" && mv "$at/read.$$" "$at/read.nbt"; }}
[ ! -e "$at/$1.first" ] || {{ mv "$at/$1.first" "$at/$1.begun"; . "$at/$1.begun"; }}
if [ "$1" = levels ] && [ ! -e "$at/levels.out" ]; then
    '{program}' "$@" 2>"$at/levels.err" || {{ cave=$2; shift 3; '{program}' levels "$cave" "$@"; }}
    exit
fi
cat "$at/$1.err" >&2
cat "$at/$1.out"
. "$at/$1.more"
"""
# A room of five cells over stone, with its plan.
STONE, AIR = ("minecraft:stone", {}), ("minecraft:air", {})
DARK = "dark 3\n1 1 1\n2 1 1\n3 1 1\n"
PLAN = "torches 1\ndark 3\nT 2 1 1 floor\nlayer 1\n#####\n#.T.#\n#####\n"


def room(x, y, z):
    return AIR if 1 <= x <= 3 and 1 <= y <= 2 and z == 1 else STONE


def structure(block=room, size=(5, 4, 3), **more):
    """A structure file, by the wiki's "Structure file"."""
    cells = [(x, y, z) for x in range(size[0]) for y in range(size[1]) for z in range(size[2])]
    palette = list(dict.fromkeys(block(*at)[0] for at in cells))
    blocks = [{"pos": list(at), "state": palette.index(block(*at)[0])} for at in cells]
    return nbt({"size": list(size), "palette": [{"Name": name} for name in palette], "blocks": blocks, **more})


class Commands(unittest.TestCase):
    @classmethod
    def setUpClass(cls):
        room = tempfile.TemporaryDirectory()
        cls.addClassCleanup(room.cleanup)
        cls.program = unpacked(room.name)

    def setUp(self):
        room = tempfile.TemporaryDirectory()
        self.addCleanup(room.cleanup)
        self.tools, self.folder = os.path.join(room.name, "tools"), os.path.join(room.name, "here")
        os.mkdir(self.tools)
        os.mkdir(self.folder)
        self.addCleanup(os.chdir, os.getcwd())
        os.chdir(self.folder)
        self.planner = os.path.join(self.tools, "planner")
        planned = unittest.mock.patch.dict(os.environ, {"TORCHPLAN": self.planner})
        planned.start()
        self.addCleanup(planned.stop)
        with open(self.planner, "w", encoding="utf-8") as file:
            file.write(PLANNER.format(folder=self.tools, program=self.program))
        os.chmod(self.planner, 0o755)
        self.answers = {"--version": {"out": "torchplan 9.8.7\n"}, "dark": {"out": DARK},
                        "plan": {"out": PLAN, "proof": "a proof\n"}, "check": {"out": "accepted 1\n"}}
        self.put("room.nbt", structure())

    def path(self, *name):
        return os.path.join(self.folder, *name)

    def put(self, name, data):
        with open(self.path(name), "wb") as file:
            file.write(data)

    def text(self, *name):
        with open(self.path(*name), encoding="utf-8") as file:
            return file.read()

    def prepare(self):
        """Lays out what the planner answers."""
        for command, said in self.answers.items():
            proof = f"printf '{said.get('proof', '')}' >\"$4\"\n" if command == "plan" else ""
            more = f"{proof}sleep {said.get('sleep', 0)}\nexit {said.get('status', 0)}\n"
            if "first" in said:
                with open(os.path.join(self.tools, f"{command}.first"), "w", encoding="utf-8") as file:
                    file.write(said["first"])
            for ending, text in [("out", said.get("out", "")), ("err", said.get("err", "")), ("more", more)]:
                with open(os.path.join(self.tools, f"{command}.{ending}"), "w", encoding="utf-8") as file:
                    file.write(text)
        with open(os.path.join(self.tools, "calls"), "wb"):
            pass

    def run_light(self, *words, status=0):
        """What `light` prints and says of these words."""
        self.prepare()
        out, err = io.StringIO(), io.StringIO()
        with contextlib.redirect_stdout(out), contextlib.redirect_stderr(err):
            try:
                ended = LIGHT.main(list(words))
            except SystemExit as why:
                ended = why.code
        self.assertEqual(ended, status, out.getvalue() + err.getvalue())
        return out.getvalue(), err.getvalue()

    def calls(self):
        """The words of each call of the planner so far."""
        with open(os.path.join(self.tools, "calls"), encoding="utf-8") as file:
            return [line.split("@")[:-1] for line in file]

    def refused(self, *words, status):
        """The line that is said; nothing is left behind."""
        before = sorted(os.listdir(self.folder))
        out, err = self.run_light(*words, status=status)
        self.assertEqual(out, "")
        self.assertEqual(sorted(os.listdir(self.folder)), before)
        self.assertRegex(err, r"\A[^\n]+\n\Z")
        return err[:-1]


class Link(unittest.TestCase):
    def test_the_first_command_of_the_readme_is_there(self):
        with open(os.path.join(TOP, "README.md"), encoding="utf-8") as file:
            self.assertIn("$ ./light examples/hall.nbt\n", file.read())
        self.assertTrue(os.path.samefile(os.path.join(TOP, "light"), SCRIPT))
        self.assertTrue(os.path.exists(os.path.join(EXAMPLES, "hall.nbt")))
        ran = subprocess.run([os.path.join(TOP, "light"), "--help"], capture_output=True, text=True)
        self.assertIn("light [options] FILE", ran.stdout)


class Structures(Commands):
    def test_a_plan(self):
        out, err = self.run_light("room.nbt")
        lines = out.splitlines()
        self.assertEqual(lines[:3], [
            "room: 1 torch for 3 dark cells; fewer don't do, and the proof is checked", "carry 1 torch",
            "in room-torches: open index.html (README.txt says what is what)",
        ])
        self.assertRegex(lines[3], r"\Atook \d+\.\d seconds\Z")
        self.assertEqual(err, "")
        self.assertEqual(sorted(os.listdir(self.path("room-torches"))), FILES)
        self.assertEqual(sorted(os.listdir(self.folder)), ["room-torches", "room.nbt"])
        self.assertEqual(self.text("room-torches", "plan.txt"), PLAN)
        self.assertEqual(self.text("room-torches", "plan.proof"), "a proof\n")
        self.assertEqual(self.text("room-torches", "plan.check"), "accepted 1\n")
        mask = os.umask(0)
        os.umask(mask)
        self.assertEqual(stat.S_IMODE(os.stat(self.path("room-torches")).st_mode), 0o777 & ~mask)

    def test_the_planner_reads_the_file_unpacked(self):
        for data in (structure(), gzip.compress(structure())):
            self.put("room.nbt", data)
            self.run_light("room.nbt", "--force")
            with open(os.path.join(self.tools, "read.nbt"), "rb") as file:
                self.assertEqual(file.read(), structure())

    def test_the_words_that_the_planner_gets(self):
        self.run_light("room.nbt", "--rule", "1.17", "--headroom", "1", "--workers", "3", "--turns", "77", "--progress")
        rules = ["--table", os.path.join(EXAMPLES, "tables", "vanilla-1.21.toml"), "--rule", "1.17", "--headroom", "1"]
        version, dark, plan, check, before, after = self.calls()
        self.assertEqual(dark[0::2][:1] + dark[2:], ["dark", "--progress", *rules])
        self.assertEqual(plan[2], "--proof")
        self.assertEqual(plan[4:], ["--turns", "77", "--workers", "3", "--progress", *rules])
        self.assertEqual(check[3:], rules)
        self.assertEqual(version, ["--version"])
        self.assertEqual(before, ["levels", plan[1], *rules])
        self.assertEqual(after, ["levels", plan[1], os.path.join(os.path.dirname(plan[1]), "plan.txt"), *rules])

    def test_turns_unless_it_is_to_the_end(self):
        self.run_light("room.nbt")
        self.assertIn("--turns", self.calls()[2])
        self.run_light("room.nbt", "--force", "--to-the-end")
        self.assertNotIn("--turns", self.calls()[2])

    def slabs(self):
        """The cells that were planned as slabs."""
        with gzip.open(self.path("room-torches", "cave.nbt"), "rb") as file:
            return {at for at, name in cells_of(file.read()).items() if name == "torchplan:slab"}

    def test_all_cells_that_no_torch_can_light_are_found_at_once(self):
        felt = ("cave:felt", {})
        block = lambda x, y, z: felt if (x, y, z) in ((1, 1, 1), (3, 1, 1)) else STONE if (x, z) == (2, 1) else room(x, y, z)
        self.put("room.nbt", structure(block))
        self.put("mine.toml", b'[[row]]\nname = "cave:felt"\nopacity = 0\nfree = true\n')
        self.answers["dark"]["out"] = "dark 2\n1 1 1\n3 1 1\n"
        self.answers["plan"] = {"first": "echo 'torchplan: unlightable 1 1 1' >&2; exit 3", "proof": "p",
                                "out": "torches 0\ndark 0\n"}
        self.run_light("room.nbt", "--table", "mine.toml", "--headroom", "1")
        # above each of them a torch hangs on the wall, whose light reaches them from above
        self.assertEqual(self.slabs(), {(1, 1, 1)})
        self.put("room.nbt", structure(lambda x, y, z: felt if (x, y, z) in ((1, 1, 1), (3, 1, 1)) else STONE))
        self.run_light("room.nbt", "--force", "--table", "mine.toml", "--headroom", "1")
        self.assertEqual(self.slabs(), {(1, 1, 1), (3, 1, 1)})
        # the planner has the last word on which light reaches a cell
        self.put("room.nbt", structure(block))
        self.answers["levels"] = {"out": "levels 5 4 3\n" + "00000\n" * 12}
        self.run_light("room.nbt", "--force", "--table", "mine.toml", "--headroom", "1")
        self.assertEqual(self.slabs(), {(1, 1, 1), (3, 1, 1)})

    def test_turns_are_fewer_for_many_dark_cells_and_never_without_bound(self):
        self.assertEqual([answers.turns_for(range(count)) for count in (0, 1, 4, 5, 88, 81_920)],
                         [1_000_000, 1_000_000, 1_000_000, 800_000, 45_454, 48])

    def levels(self):
        """The levels that the page shows, layer by layer."""
        return unrun(data_of(self.text("room-torches", "index.html"))["levels"])

    def test_the_page_shows_the_levels_that_the_planner_tells_of_the_plan(self):
        self.run_light("room.nbt")
        self.assertEqual(self.levels(), [0] * 15 + [0] * 6 + [13, 14, 13] + [0] * 6 + [0] * 6 + [12, 13, 12] + [0] * 21)
        told = [(7 * cell) % 16 for cell in range(60)]
        rows = ["".join(f"{level:x}" for level in told[start : start + 5]) for start in range(0, 60, 5)]
        self.answers["levels"] = {"out": "\n".join(["levels 5 4 3", *rows, ""])}
        self.run_light("room.nbt", "--force")
        self.assertEqual(self.levels(), told)

    def test_levels_that_are_none(self):
        for text in ("", "levels 5 4 3\n00000\n", "torches 1\n"):
            self.answers["levels"] = {"out": text}
            self.assertIn("answers otherwise than torchplan: levels: ", self.refused("room.nbt", status=1))

    def test_a_stopped_plan(self):
        plan = PLAN.replace("torches 1", "torches 2 at-least 1").replace("T 2 1 1", "T 1 1 1 floor\nT 3 1 1")
        self.answers["plan"] = {"out": plan, "status": 5}
        out, err = self.run_light("room.nbt", status=5)
        self.assertIn("room: 2 torches for 3 dark cells, safe; at least 1 is needed; more time may find fewer\n", out)
        left = set(FILES) - {"plan.proof", "plan.check"}
        self.assertEqual(set(os.listdir(self.path("room-torches"))), left)
        self.assertEqual([call[0] for call in self.calls()], ["--version", "dark", "plan", "levels"])

    def test_no_cell_is_dark(self):
        self.answers.update({"dark": {"out": "dark 0\n"}, "plan": {"out": "torches 0\ndark 0\n", "proof": "p"},
                             "check": {"out": "accepted 0\n"}})
        out, err = self.run_light("room.nbt")
        self.assertTrue(out.startswith("room: no cell is dark, no torch is needed\n"))
        self.assertEqual(sorted(os.listdir(self.path("room-torches"))), FILES)

    def test_the_rule_of_older_games(self):
        for version, rule in [(V1_16, "1.17"), (2_730, "1.17"), (V1_18, "1.18"), (V1_21, "1.18")]:
            self.put("room.nbt", structure(DataVersion=version))
            out, err = self.run_light("room.nbt", "--force")
            self.assertEqual(self.calls()[2][-3], rule)
            self.assertEqual("planned by --rule 1.17" in err, rule == "1.17")
        self.put("room.nbt", structure(DataVersion=V1_16))
        out, err = self.run_light("room.nbt", "--force", "--rule", "1.18")
        self.assertEqual((self.calls()[2][-3], err), ("1.18", ""))

    def test_a_game_that_is_later_than_the_tables(self):
        self.put("room.nbt", structure(DataVersion=4_700))
        out, err = self.run_light("room.nbt")
        told = "light: data version 4700 is later than 1.21.11: a block that is new is refused by its name\n"
        self.assertEqual(err, told)

    def test_a_table_that_is_made_is_kept(self):
        self.put("mine.toml", b'[[row]]\nname = "cave:felt"\nopacity = 15\n')
        for words, told in [(["--steady"], "vanilla-1.21.toml with its steady lights"),
                            (["--table", "mine.toml"], "mine.toml, then vanilla-1.21.toml")]:
            self.run_light("room.nbt", "--force", *words)
            self.assertEqual(sorted(os.listdir(self.path("room-torches"))), sorted([*FILES, "table.toml"]))
            self.assertIn("\ntable.toml ", self.text("room-torches", "README.txt"))
            self.assertIn(told, self.text("room-torches", "README.txt"))
        self.assertTrue(self.text("room-torches", "table.toml").startswith("[[row]]\nname = \"cave:felt\"\n"))

    def test_what_the_planner_tells_is_passed_on(self):
        self.answers["plan"]["err"] = "torchplan: region 1 of 1: 1 to 2 torches, turn 5\n"
        out, err = self.run_light("room.nbt")
        self.assertEqual(err, "torchplan: region 1 of 1: 1 to 2 torches, turn 5\n")

    def test_free_cells_at_the_edge_are_told_in_plain_words_once(self):
        edge = "torchplan: free cells lie at the box's edge: 4 west, 12 below; outside counts as solid nothing\n"
        self.answers["dark"]["err"] = self.answers["plan"]["err"] = edge
        out, err = self.run_light("room.nbt")
        told = "free cells at the box's edge: 4 in the west, 12 at the bottom. What lies beyond counts as nothing: "
        self.assertTrue(err.startswith(f"light: {told}"), err)
        self.assertEqual(err.count("\n"), 1)
        self.assertIn(f"\n{told}", self.text("room-torches", "README.txt"))
        self.assertIn(told, self.text("room-torches", "index.html"))

    def test_nothing_is_told_of_the_edge_of_open_sky(self):
        edge = "torchplan: free cells lie at the box's edge: 4 west, 12 below; outside counts as solid nothing\n"
        self.answers.update({"dark": {"out": "dark 0\n", "err": edge}, "check": {"out": "accepted 0\n"},
                             "plan": {"out": "torches 0\ndark 0\n", "proof": "p"}})
        self.put("room.nbt", structure(lambda x, y, z: AIR))
        self.assertEqual(self.run_light("room.nbt")[1], "")
        self.put("room.nbt", structure())  # there is ground: a floor may be missing
        self.assertIn("free cells", self.run_light("room.nbt", "--force")[1])

    def test_a_cell_that_no_torch_can_light_gets_a_slab_and_the_rest_a_plan(self):
        # a mob could spawn in the grass of a cell of its own, in which no torch may stand
        felt = ("cave:felt", {})
        block = lambda x, y, z: felt if (x, y, z) == (3, 1, 1) else STONE if (x, z) == (2, 1) else room(x, y, z)
        self.put("room.nbt", structure(block))
        self.put("mine.toml", b'[[row]]\nname = "cave:felt"\nopacity = 0\nfree = true\n')
        self.answers["dark"]["out"] = "dark 2\n1 1 1\n3 1 1\n"
        self.answers["plan"] = {"first": "echo 'torchplan: unlightable 3 1 1' >&2; exit 3", "proof": "p",
                                "out": "torches 1\ndark 1\nT 1 1 1 floor\n"}
        out, err = self.run_light("room.nbt", "--table", "mine.toml")
        told = "no torch can light 3 1 1 (cave:felt over minecraft:stone), where a mob could spawn: put a slab there"
        self.assertIn(f"light: {told}", err)
        self.assertNotIn("unlightable", err)
        self.assertIn(f"\n{told}", self.text("room-torches", "README.txt"))
        self.assertIn(told, self.text("room-torches", "index.html"))
        self.assertEqual([call[0] for call in self.calls()],
                         ["--version", "dark", "plan", "levels", "dark", "plan", "check", "levels"])
        self.assertEqual(self.slabs(), {(3, 1, 1)})
        self.assertIn('[[row]]\nname = "torchplan:slab"\nopacity = 15\n', self.text("room-torches", "table.toml"))


PROOF = "torchproof 1\\nbox 5 4 3\\nheadroom 2\\nregions 1\\nregion 3 1\\nD 21 22 23\\nT {}\\nL 1 21\\nend\\n"


class Better(Commands):
    """Torches that stand better than where the search put them."""

    def setUp(self):
        super().setUp()
        self.put("room.nbt", structure(lambda x, y, z: AIR if 1 <= x <= 3 and 1 <= y <= 2 and z == 1 else STONE))
        aside = PLAN.replace("T 2 1 1", "T 1 1 1").replace("#.T.#", "#T..#")
        self.answers["plan"] = {"out": aside, "proof": PROOF.format(21)}
        self.aside = aside

    def test_plan_page_pack_and_proof_say_the_same_torches(self):
        self.run_light("room.nbt")
        self.assertEqual(self.text("room-torches", "plan.txt"), PLAN)
        self.assertEqual(self.text("room-torches", "plan.proof"), PROOF.format(22).replace("\\n", "\n"))
        self.assertEqual(data_of(self.text("room-torches", "index.html"))["torches"], [[2, 1, 1, "floor"]])
        with zipfile.ZipFile("room-torches/room-torches.zip") as pack:
            placed = pack.read("data/torchplan/function/room/place.mcfunction")
        self.assertEqual(placed, b"setblock ~2 ~1 ~1 minecraft:torch\n")
        self.assertEqual([call[0] for call in self.calls()][-4:], ["check", "levels", "check", "levels"])

    def test_torches_stay_where_by_the_planner_s_levels_no_place_is_better(self):
        self.answers["levels"] = {"out": "levels 5 4 3\n" + "fffff\n" * 12}
        self.run_light("room.nbt")
        self.assertEqual(self.text("room-torches", "plan.txt"), self.aside)

    def test_as_planned(self):
        self.run_light("room.nbt", "--as-planned")
        self.assertEqual(self.text("room-torches", "plan.txt"), self.aside)
        self.assertEqual(self.text("room-torches", "plan.proof"), PROOF.format(21).replace("\\n", "\n"))
        self.assertEqual([call[0] for call in self.calls()].count("check"), 1)

    def test_a_plan_stays_where_the_checker_rejects_what_was_moved(self):
        # the second time that the checker is asked, it says no
        again = 'if [ -e "$at/asked" ]; then rm "$at/asked"; echo rejected: left dark 21; exit 4; fi; touch "$at/asked"'
        with open(self.planner, encoding="utf-8") as file:
            text = file.read().replace('cat "$at/$1.err" >&2', f'if [ $1 = check ]; then {again}; fi\ncat "$at/$1.err" >&2')
        with open(self.planner, "w", encoding="utf-8") as file:
            file.write(text)
        self.run_light("room.nbt")
        self.assertEqual(self.text("room-torches", "plan.txt"), self.aside)
        self.assertEqual(self.text("room-torches", "plan.proof"), PROOF.format(21).replace("\\n", "\n"))
        self.assertEqual(self.text("room-torches", "plan.check"), "accepted 1\n")

    def test_a_stopped_plan_is_tried_by_the_dark_cells_that_it_leaves(self):
        stopped = self.aside.replace("torches 1", "torches 1 at-least 1")
        self.answers["plan"] = {"out": stopped, "status": 5}
        self.run_light("room.nbt", status=5)  # the planner finds three cells dark once more
        self.assertEqual(self.text("room-torches", "plan.txt"), stopped)
        with open(self.planner, encoding="utf-8") as file:
            text = file.read().replace('cat "$at/$1.out"', 'if [ $1 = dark ] && grep -q minecraft:torch "$2"; then'
                                       ' echo dark 0; else cat "$at/$1.out"; fi')
        with open(self.planner, "w", encoding="utf-8") as file:
            file.write(text)
        self.run_light("room.nbt", "--force", status=5)
        self.assertEqual(self.text("room-torches", "plan.txt"), PLAN.replace("torches 1", "torches 1 at-least 1"))
        self.assertEqual(sorted(os.listdir("room-torches")), sorted(set(FILES) - {"plan.check", "plan.proof"}))

    def test_a_plan_that_python_draws_otherwise_is_left(self):
        self.answers["plan"]["out"] = self.aside.replace("#####\n#T", "####.\n#T")
        self.run_light("room.nbt")
        self.assertIn("T 1 1 1 floor", self.text("room-torches", "plan.txt"))

    def test_torches_that_stand_are_moved(self):
        torch = ("minecraft:torch", {})
        self.put("room.nbt", structure(lambda x, y, z: torch if (x, y, z) == (1, 1, 1) else room(x, y, z)))
        self.answers["plan"] = {"out": PLAN, "proof": PROOF.format(22)}
        out, err = self.run_light("room.nbt", "--move")
        self.assertIn("take away 1, place 1\ncarry 1 torch\n", out)
        with gzip.open("room-torches/cave.nbt", "rb") as file:
            self.assertNotIn("minecraft:torch", cells_of(file.read()).values())
        data = data_of(self.text("room-torches", "index.html"))
        self.assertEqual((data["away"], data["torches"], data["total"]), ([[1, 1, 1]], [[2, 1, 1, "floor"]], 1))
        self.put("room.nbt", structure(lambda x, y, z: torch if (x, y, z) == (2, 1, 1) else room(x, y, z)))
        out, err = self.run_light("room.nbt", "--move", "--force")
        self.assertIn("take away 0, place 0\ncarry 0 torches\n", out)


class WhatMatters(Commands):
    """Parts of a cave that are left out: two rooms of stone, one of them closed."""

    def setUp(self):
        super().setUp()
        self.put("room.nbt", structure(lambda x, y, z: AIR if x in (1, 2, 3, 5) and y in (1, 2) and z == 1 else STONE,
                                       (7, 4, 3)))
        self.answers["dark"]["out"] = "dark 4\n1 1 1\n2 1 1\n3 1 1\n5 1 1\n"
        self.answers["plan"]["out"] = "torches 2\ndark 4\nT 2 1 1 floor\nT 5 1 1 floor\n"

    def read(self):
        with open(os.path.join(self.tools, "read.nbt"), "rb") as file:
            return {at: name for at, name in cells_of(file.read()).items() if not name.startswith("minecraft:")}

    def test_torches_where_nobody_gets_to_are_listed_apart(self):
        out, err = self.run_light("room.nbt", "--walk", "1", "1", "1")
        told = "1 torch lights only cells where nobody gets to on foot, last in the list: --reachable leaves them out"
        self.assertEqual(err, f"light: {told}\n")
        data = data_of(self.text("room-torches", "index.html"))
        self.assertEqual((data["apart"], data["torches"][-1]), (1, [5, 1, 1, "floor"]))
        self.assertIn(f"\n{told}\n", self.text("room-torches", "README.txt"))
        self.assertEqual(self.read(), {})

    def test_only_what_one_gets_to(self):
        self.run_light("room.nbt", "--walk=1,1,1", "--reachable")
        # no mob stands below the cell that nobody gets to; what lies under no room doesn't matter
        found = self.read()
        self.assertEqual(found[5, 0, 1], "ignored:1")
        self.assertNotIn((2, 0, 1), found)
        self.assertIn('name = "ignored:1", opacity = 15, top = true, side = true }',
                      self.text("room-torches", "table.toml"))

    def test_only_some_boxes_and_no_torch_in_others(self):
        self.run_light("room.nbt", "--only", "1", "1", "1", "2", "2", "1", "--only=5,0,0,5,9,9", "--not=2,1,1,3,1,1")
        found = self.read()
        self.assertEqual({at for at, name in found.items() if name == "barred:1"}, {(2, 1, 1), (3, 1, 1)})
        self.assertEqual({(x, 0, 1) for x in (1, 2, 3, 5) if (x, 0, 1) in found}, {(3, 0, 1)})

    def test_what_can_t_be_lit_without_torches_in_a_box_stays_dark(self):
        self.answers["plan"] = {"first": "echo 'torchplan: unlightable 5 1 1' >&2; exit 3", "proof": "p",
                                "out": "torches 1\ndark 3\nT 2 1 1 floor\n"}
        out, err = self.run_light("room.nbt", "--not=5,0,0,5,9,9")
        self.assertEqual(err, "light: cells stay dark since no torch may stand where it would light them (--not): 1\n")
        self.assertEqual(self.read()[5, 0, 1], "unlit:1")

    def test_mistakes(self):
        self.assertIn("--reachable goes from a point", self.refused("room.nbt", "--reachable", status=2))
        self.assertIn("nobody can stand at 40 1 1", self.refused("room.nbt", "--walk", "40", "1", "1", status=1))
        self.assertIn("expected 6 arguments", self.refused("room.nbt", "--only", "1", "2", "3", status=2))


class Refusals(Commands):
    def test_the_planner_s_faults(self):
        for command, status in [("dark", 1), ("plan", 1), ("plan", 7), ("check", 6)]:
            was = self.answers[command]
            self.answers[command] = {"err": "torchplan: a fault\n", "status": status}
            self.assertEqual(self.refused("room.nbt", status=status), "torchplan: a fault")
            self.answers[command] = was

    def test_a_proof_that_is_rejected(self):
        self.answers["check"] = {"out": "rejected: left dark 7\n", "status": 4}
        self.assertEqual(self.refused("room.nbt", status=4), "light: check says of the proof: rejected: left dark 7")

    def test_another_program_than_the_planner(self):
        for command, out in [("plan", ""), ("plan", "usage\n"), ("dark", "usage\n"), ("dark", "dark 1\nx y z\n")]:
            was = self.answers[command]
            self.answers[command] = {"out": out, "proof": "p"}
            self.assertIn("answers otherwise than torchplan", self.refused("room.nbt", status=1))
            self.answers[command] = was

    def test_unknown_blocks_are_told_all_at_once_with_a_table_that_has_them(self):
        names = iter(["cave:felt", "mod:ore"])
        self.put("room.nbt", structure(lambda x, y, z: (f"mod:b{x}", {}) if y == 0 and x < 2 else room(x, y, z)))
        out, err = self.run_light("room.nbt", status=1)
        self.assertEqual(err.splitlines(), [
            "light: no table has 2 blocks of the cave: mod:b0, mod:b1",
            "light: room-torches/unknown.toml has a row for each, as full and solid: look them over, then add"
            " --table room-torches/unknown.toml"])
        self.assertEqual(os.listdir(self.path("room-torches")), ["unknown.toml"])
        # the folder with that table alone is no plan: nothing has to be forced, and the table stays
        self.run_light("room.nbt", "--table", "room-torches/unknown.toml")
        self.assertEqual(sorted(os.listdir(self.path("room-torches"))), sorted([*FILES, "table.toml", "unknown.toml"]))

    def test_an_unknown_block_that_the_planner_alone_tells(self):
        self.answers["dark"] = {"err": "torchplan: unknown block cave:felt\n", "status": 1}
        out, err = self.run_light("room.nbt", status=1)
        self.assertIn("no table has 1 block of the cave: cave:felt", err)
        self.assertIn('name = "cave:felt"', self.text("room-torches", "unknown.toml"))
        shutil.rmtree(self.path("room-torches"))
        self.answers["dark"]["err"] = "torchplan: unknown block cave:\\x0a\n"
        self.assertEqual(self.refused("room.nbt", status=1),
                         "light: no table has 1 block of the cave: cave:\\x0a")

    def test_a_plan_that_stands_there_is_kept_beside_the_table_of_unknown_blocks(self):
        self.run_light("room.nbt")
        self.put("room.nbt", structure(lambda x, y, z: ("mod:b", {}) if y == 0 else room(x, y, z)))
        self.run_light("room.nbt", "--force", status=1)
        self.assertEqual(sorted(os.listdir(self.path("room-torches"))), sorted([*FILES, "unknown.toml"]))

    def test_what_the_planner_refuses_is_told_by_it(self):
        self.put("room.nbt", structure()[:-9])
        self.answers["dark"] = {"err": "torchplan: nbt: truncated at 9\n", "status": 1}
        self.assertEqual(self.refused("room.nbt", status=1), "torchplan: nbt: truncated at 9")

    def test_files_that_cannot_be_read(self):
        self.assertEqual(self.refused("no.nbt", status=6), "light: cannot read no.nbt: No such file or directory")
        self.assertEqual(self.refused(".", status=6), "light: cannot read .: Is a directory")
        self.put("cut.nbt", gzip.compress(structure())[:-20])
        self.assertEqual(self.refused("cut.nbt", status=1), "light: cut.nbt: its packed data is cut off")
        self.put("bomb.nbt", gzip.compress(bytes(70 * 2**20), 1))
        told = "light: bomb.nbt: it unpacks to more than 67,108,864 bytes"
        self.assertEqual(self.refused("bomb.nbt", status=1), told)

    def test_a_name_with_a_line_feed(self):
        self.assertEqual(self.refused("a\nb", status=6), "light: cannot read a\\nb: No such file or directory")

    def test_a_planner_that_is_not_there(self):
        os.remove(self.planner)
        told = f"light: cannot run {self.planner}: No such file or directory"
        self.assertEqual(self.refused("room.nbt", status=6), told)

    def test_a_planner_that_is_killed(self):
        with open(self.planner, "w", encoding="utf-8") as file:
            file.write("#!/bin/sh\n[ $1 = --version ] && echo torchplan 1 || kill -9 $$\n")
        self.assertEqual(self.refused("room.nbt", status=6), "light: torchplan rows was ended by signal 9")

    def test_a_program_that_is_no_planner(self):
        for text, told in [("exit 1", f"{self.planner} is no torchplan: it tells no version"),
                           ("[ $1 = --version ] && echo torchplan 1; exit 0 $1", "answers otherwise than torchplan"),
                           ("[ $1 = --version ] && echo torchplan 1 && exit; exit 5",
                            "torchplan rows ended by status 5 and said nothing")]:
            with open(self.planner, "w", encoding="utf-8") as file:
                file.write(f"#!/bin/sh\n{text}\n")
            out, err = self.run_light("room.nbt", status=1 if "otherwise" in told else 6)
            self.assertIn(told, err)
            self.assertEqual(err.count("\n"), 1)
            self.assertEqual(os.listdir(self.folder), ["room.nbt"])

    def test_a_planner_that_cannot_write_says_what_it_was_writing(self):
        self.answers["plan"] = {"err": "torchplan: cannot write\n", "status": 6}
        self.assertEqual(self.run_light("room.nbt", status=6)[1].splitlines(),
                         ["torchplan: cannot write", "light: it was writing plan.txt or plan.proof"])

    def test_a_disk_that_is_full_is_told_with_the_file(self):
        self.prepare()
        limit = lambda: resource.setrlimit(resource.RLIMIT_FSIZE, (20_000, 20_000))
        ran = subprocess.run([sys.executable, SCRIPT, "room.nbt"], capture_output=True, text=True, preexec_fn=limit)
        self.assertEqual((ran.returncode, ran.stderr), (6, "light: cannot write index.html: File too large\n"))
        self.assertEqual(os.listdir(self.folder), ["room.nbt"])

    def test_what_can_be_refused_is_refused_before_anything_is_read(self):
        self.saved_nothing = os.path.join(self.tools, "no world")
        for words, told in [(["--into", "no"], "no is no folder"), (["--table", "no.toml"], "cannot read no.toml")]:
            before = self.refused("--world", self.saved_nothing, "--from", "0", "0", "0", "--to", "1", "1", "1", *words,
                                  status=6)
            self.assertIn(told, before)
        os.mkdir("in")
        os.mkdir("in/room-torches")
        self.put("room.nbt", b"no structure")
        self.assertIn("is there already", self.refused("room.nbt", "--into", "in", status=1))


    def test_words_that_are_wrong(self):
        wrong = [[], ["room.nbt", "--world", "w"], ["--world", "w", "--from", "1", "2", "3"],
                 ["--world", "w", "--around", "1", "2", "3", "--from", "1", "2", "3", "--to", "1", "2", "3"],
                 ["room.nbt", "--from", "1", "2", "3"], ["room.nbt", "--rule", "1.19"], ["room.nbt", "--turns", "0"],
                 ["room.nbt", "--workers", "65"], ["room.nbt", "--turns", "5", "--to-the-end"], ["a", "b"],
                 ["--world", "w", "--around", "1", "2", "x"], ["--world", "w", "--around", "1", "2", "30000001"],
                 ["room.nbt", "--headroom", "3"], ["room.nbt", "--dimension", "the_end"], ["room.nbt", "--no-such"],
                 ["--world", "w", "--around", "1", "2", "3", "--dimension", "the_nether"]]
        for words in wrong:
            self.assertTrue(self.refused(*words, status=2).startswith("light: "), words)

    def test_the_folder_is_there_already(self):
        self.run_light("room.nbt")
        told = "light: room-torches is there already: --force writes it anew"
        self.assertEqual(self.refused("room.nbt", status=1), told)
        before = os.stat(self.path("room-torches", "plan.txt")).st_ino
        self.run_light("room.nbt", "--force")
        self.assertNotEqual(os.stat(self.path("room-torches", "plan.txt")).st_ino, before)
        self.put("room-torches/notes", b"mine")
        self.assertEqual(self.refused("room.nbt", "--force", status=1),
                         "light: room-torches has what isn't made here: notes")
        self.assertEqual(sorted(os.listdir(self.path("room-torches"))), sorted([*FILES, "notes"]))

    def test_a_refusal_leaves_the_folder_that_was_there(self):
        self.run_light("room.nbt")
        self.answers["check"] = {"out": "rejected: wrong box\n", "status": 4}
        self.refused("room.nbt", "--force", status=4)
        self.assertEqual(sorted(os.listdir(self.path("room-torches"))), FILES)

    def test_into_a_folder(self):
        self.assertEqual(self.refused("room.nbt", "--into", "no", status=6), "light: no is no folder")
        os.mkdir(self.path("in"))
        out, _ = self.run_light("room.nbt", "--into", "in")
        self.assertIn("\nin in/room-torches: open", out)
        self.assertEqual(sorted(os.listdir(self.path("in", "room-torches"))), FILES)

    def test_stopped_by_hand_or_by_the_system(self):
        begun = "torchplan: it has begun\n"
        self.answers["plan"].update(err=begun, sleep=30)
        for number, status in [(signal.SIGINT, 130), (signal.SIGTERM, 143)]:
            self.prepare()
            words = [sys.executable, SCRIPT, "room.nbt"]
            # A process in the background of a script ignores the first of these, and so do those that it starts.
            child = subprocess.Popen(words, text=True, stdout=subprocess.PIPE, stderr=subprocess.PIPE,
                                     preexec_fn=lambda: signal.signal(signal.SIGINT, signal.SIG_DFL))
            self.assertEqual(child.stderr.readline(), begun)
            child.send_signal(number)
            out, err = child.communicate(timeout=20)
            self.assertEqual((child.returncode, out), (status, ""))
            self.assertNotIn("Traceback", err)
            self.assertEqual(os.listdir(self.folder), ["room.nbt"])


class Streams(Commands):
    """A run of its own process, with streams that are closed or full."""

    def ran(self, shell, *words):
        self.prepare()
        command = ["sh", "-c", f'exec "$@" {shell}', "sh", sys.executable, SCRIPT, *words]
        return subprocess.run(command, stdout=subprocess.PIPE, stderr=subprocess.PIPE, text=True)

    def test_closed_streams(self):
        for shell in (">&-", "2>&-", ">&- 2>&-", "<&- >&- 2>&-"):
            with self.subTest(shell):
                ran = self.ran(shell, "room.nbt", "--force")
                self.assertEqual((ran.returncode, ran.stderr), (0, ""))
                self.assertEqual(sorted(os.listdir(self.path("room-torches"))), FILES)

    def test_an_output_that_takes_nothing(self):
        ran = self.ran(">/dev/full", "room.nbt")
        self.assertEqual((ran.returncode, ran.stderr),
                         (6, "light: cannot write to standard output: No space left on device\n"))
        self.assertNotIn("Traceback", self.ran(">/dev/full", "--help").stderr)
        self.assertEqual(self.ran("2>/dev/full", "no.nbt").returncode, 6)

    def test_a_pipe_that_nobody_reads(self):
        end, start = os.pipe()
        os.close(end)
        self.prepare()
        with open(start, "wb") as pipe:
            ran = subprocess.run([sys.executable, SCRIPT, "room.nbt"], stdout=pipe, stderr=subprocess.PIPE, text=True)
        self.assertEqual((ran.returncode, ran.stderr), (6, "light: cannot write to standard output: Broken pipe\n"))

    def test_ctrl_c_at_any_moment_leaves_no_trace(self):
        self.prepare()
        own = lambda: signal.signal(signal.SIGINT, signal.SIG_DFL)
        for wait in (0.03, 0.06, 0.09, 0.12, 0.15, 0.2):
            child = subprocess.Popen([sys.executable, "-S", SCRIPT, "room.nbt"], text=True, stdout=subprocess.DEVNULL,
                                     stderr=subprocess.PIPE, preexec_fn=own)
            time.sleep(wait)
            child.send_signal(signal.SIGINT)
            err = child.communicate(timeout=20)[1]
            # Python itself begins before the script does: at line 0 no line of it has run.
            if "user/light" in err and "line 0, in <module>" not in err:
                self.assertNotIn("Traceback", err)
            if child.returncode == 0:
                shutil.rmtree("room-torches")
            self.assertEqual(os.listdir(self.folder), ["room.nbt"])


class LinesOfThePlanner(unittest.TestCase):
    def test_a_line_is_whole_however_its_bytes_come(self):
        end, start = os.pipe()
        with open(end, "rb") as pipe:
            lines = lines_of(pipe)
            os.write(start, b"one\ntw")
            self.assertEqual(next(lines), b"one\n")
            os.write(start, b"o\n\nthree")
            self.assertEqual([next(lines), next(lines)], [b"two\n", b"\n"])
            os.close(start)
            self.assertEqual(list(lines), [b"three"])


class OfWorlds(Commands):
    def setUp(self):
        super().setUp()
        self.world = os.path.join(self.tools, "My World")
        self.saved = Saved(self.world, version=V1_21)

    def fill(self, version=V1_21, places=tuple((x, z) for x in (-1, 0, 1) for z in (-1, 0, 1))):
        block = lambda x, y, z: room(x - 2, y - 3, z - 4)
        self.saved.fill(block, [0], places, version)

    def test_a_box_between_two_corners(self):
        self.fill()
        out, err = self.run_light("--world", self.world, "--from", "6", "3", "6", "--to", "2", "6", "4")
        self.assertEqual(err, "light: the box is --from 2 3 4 --to 6 6 6, 5 x 4 x 3 cells\n")
        folder = "My World_2_3_4_to_6_6_6-torches"
        ending = [f"my_world_2_3_4_to_6_6_6-torches.{kind}" for kind in ("litematic", "nbt", "zip")]
        self.assertEqual(sorted(os.listdir(self.path(folder))), sorted([*PLAIN, *ending, "cave.nbt", "table.toml"]))
        self.assertIn("\ncave.nbt ", self.text(folder, "README.txt"))
        told = PLAN.replace("dark 3\n", "dark 3\ncorner 1 2 3 in minecraft:overworld\n")
        self.assertEqual(self.text(folder, "plan.txt"), told)
        # the planner reads what a structure block would have saved there, with a layer more on each side
        with open(os.path.join(self.tools, "read.nbt"), "rb") as file:
            read = file.read()
        with gzip.open(self.path(folder, "cave.nbt"), "rb") as file:
            self.assertEqual(file.read(), read)
        inside = {at: name for at, name in cells_of(read).items() if not name.startswith("shell:")}
        self.assertEqual(inside, {tuple(place + 1 for place in at): name for at, name in cells_of(structure()).items()})
        shell = {name for name in cells_of(read).values() if name not in inside.values()}
        self.assertEqual(shell, {"shell:1"})  # all is stone about the room
        self.assertIn('{ name = "shell:1", opacity = 15, stand = true, top = true, side = true },',
                      self.text(folder, "table.toml"))

    def test_chunks_that_are_not_there_are_told(self):
        self.fill(places=[(0, 0), (1, 0)])
        out, err = self.run_light("--world", self.world, "--from", "0", "0", "0", "--to", "15", "6", "16")
        told = ("1 chunk of the box isn't there or finished, from chunk 0 1 (at 0 16) on. They count as nothing: no"
                " ground, no light, no room. Walk there in the game first")
        self.assertIn(f"light: {told}\n", err)
        self.assertIn("light: 9 chunks around the box aren't there", err)
        for name in ("README.txt", "index.html"):
            self.assertIn(told, self.text("My World_0_0_0_to_15_6_16-torches", name))

    def test_around_a_point(self):
        self.fill(places=[(x, z) for x in (-1, 0) for z in (-1, 0)])
        out, err = self.run_light("--world", self.world, "--around", "3", "4", "5", "--dimension", "overworld")
        self.assertEqual(err.splitlines()[0], "light: the box is --from -16 -12 -16 --to 15 27 15, 32 x 40 x 32 cells")

    def test_an_area_of_more_than_a_box_is_planned_in_pieces(self):
        # two rooms that light doesn't cross between, too far from each other for one box
        near, far = (lambda x, y, z: room(x - 2, y - 3, z - 4)), (lambda x, y, z: room(x - 202, y - 3, z - 4))
        block = lambda x, y, z: near(x, y, z) if x < 100 else far(x, y, z)
        self.saved.fill(block, [0], [(x, z) for x in range(-1, 14) for z in (-1, 0, 1)], V1_21)
        self.answers["dark"]["out"] = "dark 3\n1 1 1\n2 1 1\n3 1 1\n"
        self.answers["plan"] = {"out": "torches 1\ndark 3\nT 2 1 1 floor\n", "proof": "p"}
        words = ["--world", self.world, "--from", "2", "3", "4", "--to", "206", "6", "6"]
        out, err = self.run_light(*words)
        self.assertEqual(err, "light: 2 caves lie apart, in 2 pieces to plan\n")
        self.assertIn(": 2 torches for 6 dark cells in 2 pieces; fewer don't do, and each proof is checked\n", out)
        place = "My World_2_3_4_to_206_6_6-torches"
        self.assertEqual(os.listdir(self.folder).count(place), 1)
        self.assertNotIn(place + ".pieces", os.listdir(self.folder))
        self.assertEqual(sorted(os.listdir(place)), ["README.txt", "index.html", "my_world_2_3_4_to_206_6_6-torches.zip",
                                                     "pieces", "plan.txt"])
        self.assertEqual(sorted(os.listdir(os.path.join(place, "pieces"))), ["1", "2"])
        # the piece's corner is that of its shell
        self.assertEqual(self.text(place, "plan.txt").splitlines(),
                         ["torches 2", "dark 6", "corner 2 3 4 in minecraft:overworld", "T 2 1 1 floor", "T 202 1 1 floor"])
        with zipfile.ZipFile(os.path.join(place, "my_world_2_3_4_to_206_6_6-torches.zip")) as pack:
            placed = pack.read("data/torchplan/function/my_world_2_3_4_to_206_6_6/place.mcfunction").decode()
        self.assertEqual(placed.splitlines(), [f"execute in minecraft:overworld run setblock {x} 4 5 minecraft:torch"
                                               for x in (4, 204)])
        page = self.text(place, "index.html")
        self.assertIn('<svg viewBox="0 0 205 3"', page)
        for number, x in ((1, 3), (2, 203)):
            told = "1 torch, 3 dark cells"
            self.assertIn(f'<a href="pieces/{number}/index.html">{x} 4 5 to {x + 2} 5 5</a>: {told}</li>', page)
            self.assertIn(f'<a href="pieces/{number}/index.html"><title>{told}</title>'
                          f'<rect x="{x - 2}" y="1" width="3" height="1"/>', page)
            self.assertIn(f"M{x - 1}.5 1.5h0", page)
        self.assertEqual(sorted(name for name in os.listdir(os.path.join(place, "pieces", "1")) if "torches" not in name),
                         sorted([*PLAIN, "cave.nbt", "table.toml"]))

    def test_a_piece_that_fails_does_not_stop_the_others_and_is_tried_again(self):
        block = lambda x, y, z: room(x - 2, y - 3, z - 4) if x < 100 else room(x - 202, y - 3, z - 4)
        self.saved.fill(block, [0], [(x, z) for x in range(-1, 14) for z in (-1, 0, 1)], V1_21)
        self.answers["plan"] = {"first": "echo 'torchplan: cannot write' >&2; exit 6", "proof": "p",
                                "out": "torches 1\ndark 3\nT 2 1 1 floor\n"}
        words = ["--world", self.world, "--from", "2", "3", "4", "--to", "206", "6", "6"]
        out, err = self.run_light(*words, status=1)
        place = "My World_2_3_4_to_206_6_6-torches"
        self.assertIn("light: --from 3 4 5 --to 5 5 5: torchplan: cannot write\n", err)
        self.assertIn(f"1 piece of 2 failed; the others are kept in {place}.pieces: the same command goes on with what", err)
        self.assertEqual(sorted(os.listdir(self.folder)), [f"{place}.pieces", "room.nbt"])
        del self.answers["plan"]["first"]
        self.run_light(*words)
        self.assertEqual([call[0] for call in self.calls()], ["--version", "dark", "plan", "check", "levels"])
        self.assertEqual(sorted(os.listdir(self.folder)), [place, "room.nbt"])

    def test_ctrl_c_ends_all_pieces_and_leaves_no_trace_of_them_but_what_was_planned(self):
        block = lambda x, y, z: room(x - 2, y - 3, z - 4) if x < 100 else room(x - 202, y - 3, z - 4)
        self.saved.fill(block, [0], [(x, z) for x in range(-1, 14) for z in (-1, 0, 1)], V1_21)
        self.answers["plan"].update(err="torchplan: it has begun\n", sleep=30)
        self.prepare()
        words = ["--world", self.world, "--from", "2", "3", "4", "--to", "206", "6", "6", "--jobs", "2"]
        child = subprocess.Popen([sys.executable, SCRIPT, *words], text=True, stdout=subprocess.PIPE, start_new_session=True,
                                 stderr=subprocess.PIPE, preexec_fn=lambda: signal.signal(signal.SIGINT, signal.SIG_DFL))
        said = [child.stderr.readline() for _ in range(3)]
        self.assertEqual(said[1:], ["torchplan: it has begun\n"] * 2)
        os.killpg(child.pid, signal.SIGINT)
        out, err = child.communicate(timeout=20)
        self.assertEqual((child.returncode, out, err), (130, "", "light: stopped\n"))
        self.assertEqual(sorted(os.listdir(self.folder)), ["My World_2_3_4_to_206_6_6-torches.pieces", "room.nbt"])

    def test_areas_about_a_point_and_of_chunks(self):
        self.fill()
        self.answers.update({"dark": {"out": "dark 0\n"}, "check": {"out": "accepted 0\n"},
                             "plan": {"out": "torches 0\ndark 0\n", "proof": "p"}})
        for words, name in [(["--around", "3", "4", "5", "--radius", "9"], "-6_-5_-4_to_12_13_14"),
                            (["--chunks", "0", "0", "0", "0"], "0_-64_0_to_15_319_15")]:
            self.run_light("--world", self.world, *words)
            self.assertIn(f"My World_{name}-torches", os.listdir(self.folder))

    def test_pieces_are_kept_for_a_run_that_asks_for_what_they_were_made_by(self):
        block = lambda x, y, z: room(x - 2, y - 3, z - 4) if x < 100 else room(x - 202, y - 3, z - 4)
        self.saved.fill(block, [0], [(x, z) for x in range(-1, 14) for z in (-1, 0, 1)], V1_21)
        self.answers["plan"].update(out="torches 1\ndark 3\nT 2 1 1 floor\n")
        words = ["--world", self.world, "--from", "2", "3", "4", "--to", "206", "6", "6"]
        ways = [[], ["--walk", "3", "4", "5"], ["--walk", "203", "4", "5"], ["--walk", "203", "4", "5", "--reachable"],
                ["--move"]]
        planned = lambda: [call[0] for call in self.calls()].count("plan")
        for more in ways:  # the first piece fails, so that the second is kept
            self.answers["plan"]["first"] = "exit 6"
            self.run_light(*words, *more, status=1)
            self.assertEqual(planned(), 2, more)
        del self.answers["plan"]["first"]
        self.run_light(*words, *ways[-1])
        self.assertEqual(planned(), 1)

    def test_refusals(self):
        corners = ["--from", "0", "0", "0", "--to", "1", "1", "1"]
        self.assertIn("is no folder of a saved world", self.refused("--world", "no", *corners, status=1))
        self.assertIn("chunk 0 0 isn't there", self.refused("--world", self.world, *corners, status=1))
        self.saved.put(0, 0, chunk(0, 0, room, [0], V1_21, status="minecraft:light"))
        self.saved.write()
        self.assertIn("hasn't finished it", self.refused("--world", self.world, *corners, status=1))
        self.fill()
        with open(self.saved.path(0, 0), "r+b") as file:
            file.truncate(8_200)
        self.assertEqual(self.refused("--world", self.world, *corners, status=1)[:55],
                         "light: region file r.0.0.mca: chunk 0 0: it is cut off:")

    def test_a_world_of_before_1_18(self):
        self.saved = Saved(self.world, version=V1_16)
        self.fill(V1_16)
        out, err = self.run_light("--world", self.world, "--from", "2", "3", "4", "--to", "6", "6", "6")
        self.assertIn("light: saved by 1.16, so planned by --rule 1.17\n", err)
        self.assertIn("1.17", self.calls()[1])

    def test_the_nether_has_its_own_name(self):
        self.saved = Saved(self.world, "DIM-1/region", V1_21)
        self.fill()
        corners = ["--from", "2", "3", "4", "--to", "6", "6", "6"]
        told = self.refused("--world", self.world, "--dimension", "the_nether", *corners, status=2)
        self.assertIn("mobs of other dimensions than the Overworld spawn at other levels: tell by --rule", told)
        out, err = self.run_light("--world", self.world, "--dimension", "the_nether", "--rule", "1.18", *corners)
        folder = "My World_the_nether_2_3_4_to_6_6_6-torches"
        self.assertIn("in the Nether and the End mobs spawn at other levels", err)
        for name in ("README.txt", "index.html"):
            self.assertIn("in the Nether and the End mobs spawn at other levels", self.text(folder, name))


class Places(Commands):
    """Where a box of a world lies, as players tell it."""

    def setUp(self):
        super().setUp()
        self.world = os.path.join(self.tools, "w")

    def saved(self, region="region", player=None):
        saved = Saved(self.world, region, V1_21, player)
        saved.fill(room, [-1, 0], [(-1, -1), (-1, 0), (0, -1), (0, 0)], V1_21)
        return saved

    def box(self, *words, status=0):
        out, err = self.run_light("--world", self.world, "--force", *words, status=status)
        return err.splitlines()[0]

    def test_coordinates_as_f3_shows_them(self):
        self.saved()
        told = "light: the box is --from -13 -3 -8 --to 8 0 9, 22 x 4 x 18 cells"
        for words in (["--from", "-12.500", "-2.00001", "9.999", "--to", "8.3", "0.0", "-8"],
                      ["--from=-12.500,-2.00001,9.999", "--to=8.3,0,-8"],
                      ["--from=-12.500", "-2.00001", "9.999", "--to", "8.3,0", "-8"],
                      ["--from", "-12.500 / -2.00001 / 9.999", "--to", "8.3,", "0,", "-8"],
                      ["--from", "-12.500", "/", "-2.00001", "/", "9.999", "--to=8", "0", "-8"]):
            self.assertEqual(self.box(*words), told, words)

    def test_without_a_box_it_goes_around_the_player(self):
        self.saved(player={"Pos": [-0.3, 2.9, 5.0], "Dimension": "minecraft:overworld"})
        around = self.box("--around", "-1", "2", "5")
        self.assertEqual(self.box(), around)
        self.assertIn("the box is --from -16 ", around)

    def test_the_player_s_dimension_is_taken(self):
        self.saved("DIM-1/region")
        self.saved("region", {"Pos": [3.0, 2.0, 5.0], "Dimension": "minecraft:the_nether"})
        self.assertIn("spawn at other levels: tell by --rule", self.box(status=2))
        self.box("--rule", "1.18")
        self.assertTrue(any("_the_nether_" in name for name in os.listdir(self.folder)))

    def test_pieces_of_an_area_about_the_player_are_read_where_the_player_is(self):
        self.saved("DIM-1/region")
        Saved(self.world, "region", V1_21, {"Pos": [3.0, 2.0, 5.0], "Dimension": "minecraft:the_nether"}).fill(
            lambda x, y, z: ("mod:nowhere", {}), [-1, 0], [(-1, -1), (-1, 0), (0, -1), (0, 0)], V1_21)
        self.answers["plan"]["out"] = "torches 1\ndark 3\nT 2 1 1 floor\n"
        with unittest.mock.patch("extents.CELLS", 1_000):
            self.box("--rule", "1.18", "--radius", "8", "--dimension", "nether")
            due = self.pieces()
            self.box("--rule", "1.18", "--radius", "8")
        self.assertEqual(self.pieces(), due)

    def pieces(self):
        """The cave of each piece of the area."""
        place, = [name for name in os.listdir(self.folder) if name.endswith("-torches")]
        found = []
        for name in sorted(os.listdir(self.path(place, "pieces"))):
            with gzip.open(self.path(place, "pieces", name, "cave.nbt"), "rb") as file:
                found.append(cells_of(file.read()))
        return found

    def test_a_world_without_a_player(self):
        self.saved()
        self.assertEqual(self.refused("--world", self.world, status=1),
                         "light: level.dat tells of no player: name a box by --around X Y Z, or by --from X Y Z --to X Y Z")

    def test_dimensions_by_their_short_names_and_of_data_packs(self):
        for region, name in [("DIM-1/region", "nether"), ("DIM-1/region", "minecraft:the_nether"), ("DIM1/region", "end"),
                             ("dimensions/my_pack/deep/caves/region", "my_pack:deep/caves")]:
            self.saved(region)
            corners = ["--from", "0", "0", "0", "--to", "4", "3", "2", "--rule", "1.18"]
            self.assertIn("the box is", self.box("--dimension", name, *corners))
        self.assertTrue(os.path.isdir("w_my_pack_deep_caves_0_0_0_to_4_3_2-torches"))
        for name in ("Nether", "a:b:c", "x", "a:../b", "a:b/"):
            self.assertIn("is no dimension", self.refused("--world", self.world, "--dimension", name, status=2))

    def test_a_server_s_folder_of_the_nether_alone(self):
        self.world = os.path.join(self.tools, "world_nether")
        self.saved("DIM-1/region")
        os.rmdir(os.path.join(self.world, "region")) if os.path.isdir(os.path.join(self.world, "region")) else None
        corners = ["--from", "0", "0", "0", "--to", "4", "3", "2"]
        self.assertIn("tell by --rule", self.box(*corners, status=2))
        self.box(*corners, "--rule", "1.17")
        self.assertIn("world_nether_the_nether_0_0_0_to_4_3_2-torches", os.listdir(self.folder))

    def test_a_world_that_is_open_is_told_and_read(self):
        self.saved()
        told = "light: the world is open: what the game hasn't saved yet isn't seen (on a server run save-all flush first)"
        corners = ["--from", "0", "0", "0", "--to", "4", "3", "2"]
        path = os.path.join(self.world, "session.lock")
        with open(path, "wb") as file:
            file.write(b"\xe2\x98\x83")
        self.assertNotEqual(self.box(*corners), told)
        # the lock has to be another process's
        holder = subprocess.Popen([sys.executable, "-c", "import fcntl, sys; file = open(sys.argv[1], 'r+b'); "
                                   "fcntl.lockf(file, fcntl.LOCK_EX); print(flush=True); sys.stdin.read()", path],
                                  stdin=subprocess.PIPE, stdout=subprocess.PIPE)
        holder.stdout.readline()
        self.assertEqual(self.box(*corners), told)
        holder.communicate()
        self.assertNotEqual(self.box(*corners), told)

    def test_folders_that_are_no_world_are_named_for_what_they_are(self):
        self.saved()
        corners = ["--from", "0", "0", "0", "--to", "1", "1", "1"]
        told = lambda path: self.refused("--world", path, *corners, status=1)
        minecraft = os.path.join(self.tools, ".minecraft")
        shutil.copytree(self.world, os.path.join(minecraft, "saves", "My World"))
        self.assertIn("is no world: name one of those in it (saves/My World)", told(minecraft))
        self.assertIn("is no world: name one of those in it (My World)", told(os.path.join(minecraft, "saves")))
        self.assertIn("is a file of a world: name its folder", told(os.path.join(self.world, "level.dat")))
        self.assertIn("name the world's folder, which has level.dat", told(os.path.join(self.world, "region")))
        os.makedirs(os.path.join(self.tools, "bedrock", "db"))
        self.assertIn("is a world of Bedrock Edition", told(os.path.join(self.tools, "bedrock")))

    def test_a_schematic(self):
        with open("hall.schem", "wb") as file:
            file.write(sponge(3, (5, 4, 3), [room(x, y, z) for y in range(4) for z in range(3) for x in range(5)],
                              [STONE, AIR]))
        self.answers["dark"]["err"] = "torchplan: free cells lie at the box's edge: 4 west; outside\n"
        out, err = self.run_light("hall.schem")
        self.assertIn("free cells at the box's edge: 4 in the west", err)
        with gzip.open("hall-torches/cave.nbt", "rb") as file:
            self.assertEqual(cells_of(file.read()), cells_of(structure()))


def cells_of(data):
    """The name of the block at each position of a structure file."""
    root = read_packed(gzip.compress(data))
    return {tuple(block["pos"]): root["palette"][block["state"]]["Name"] for block in root["blocks"]}


if __name__ == "__main__":
    unittest.main()
