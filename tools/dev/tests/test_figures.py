"""The table of figures: what is told of a plan that comes to other ones, and how the table is written anew."""
import os
import re
import stat
import subprocess
import sys
import tempfile
import unittest

import paths  # it makes the modules of tools/dev known

from repository import TOOLS

# Stands for probes: of each cave the same is told, and the proof is the cave's length.
PROBES = """#!/usr/bin/env python3
import os, sys
words = sys.argv
with open(words[3], "w") as proof:
    proof.write(str(os.path.getsize(words[2])))
spent = len(words) > 5 and {stops}
print("torches 2" + (" at-least 1" if spent else ""))
print("dark 88\\nregions 1\\nturns {turns}, {turns} at most")
sys.exit({status})
"""


class Figures(unittest.TestCase):
    def setUp(self):
        self.folder = tempfile.TemporaryDirectory()
        self.addCleanup(self.folder.cleanup)
        self.script = self.changed_script()

    def path(self, name):
        return os.path.join(self.folder.name, name)

    def changed_script(self):
        """The script with a table of its own and two small caves."""
        with open(os.path.join(TOOLS, "dev", "figures"), encoding="utf-8") as file:
            text = file.read()
        text = text.replace('os.path.join(TOP, "tools", "dev", "figures.txt")', repr(self.path("figures.txt")))
        caves = 'CAVES = [("hall", 0, (8, 4, 8), BOTH)]\n'
        text = re.sub(r"(?ms)^CAVES = \[.*?^\]\n", lambda _: caves, text)
        text = text.replace("sys.dont_write", f"sys.path.insert(1, {os.path.join(TOOLS, 'dev')!r})\nsys.dont_write", 1)
        with open(self.path("figures"), "w", encoding="utf-8") as file:
            file.write(text)
        return self.path("figures")

    def run_figures(self, *words, turns=9, stops=False, status=0):
        probes = self.path("probes")
        with open(probes, "w", encoding="utf-8") as file:
            file.write(PROBES.format(turns=turns, stops=stops, status=status))
        os.chmod(probes, os.stat(probes).st_mode | stat.S_IXUSR)
        words = [sys.executable, "-B", self.script, "--probes", probes, *words]
        ran = subprocess.run(words, capture_output=True, text=True, timeout=60)
        return ran.returncode, ran.stdout

    def test_the_table_that_was_written_is_met_and_told_where_it_isn_t(self):
        status, said = self.run_figures()
        self.assertEqual(status, 1)
        self.assertIn("hall 0 8 4 8 1.18: it isn't in the table", said)
        status, said = self.run_figures("--renew")
        self.assertEqual(status, 0)
        self.assertIn("was nothing", said)
        status, said = self.run_figures()
        self.assertEqual(status, 0, said)
        self.assertIn("2 plans, 0 differ", said)
        status, said = self.run_figures(turns=10)
        self.assertEqual(status, 1)
        self.assertIn("hall 0 8 4 8 1.17: turns 10, not 9; turns of one region 10, not 9", said)
        status, said = self.run_figures("--renew", turns=10)
        self.assertEqual(status, 0)
        self.assertRegex(said, r"was 88 1 2 9 9 .*\n +is  88 1 2 10 10 ")
        self.assertEqual(self.run_figures(turns=10)[0], 0)

    def test_a_plan_that_fails_is_told_and_leaves_the_table(self):
        self.run_figures("--renew")
        for words in [[], ["--renew"]]:
            status, said = self.run_figures(*words, status=7)
            self.assertEqual(status, 1)
        self.assertIn("status 7", self.run_figures(status=7)[1])
        self.assertEqual(self.run_figures()[0], 0)


if __name__ == "__main__":
    unittest.main()
