"""What nightly writes into the table, and how it ends a script whose time is spent."""
import importlib.machinery
import importlib.util
import os
import stat
import tempfile
import time
import unittest
import unittest.mock

import paths  # it makes the modules of tools/dev known

from repository import TOOLS

TABLE = """# Testing

| Cave | Torches |
|---|---|
| hall | 2 |

## What each script last showed

| What | Figure | Commit | Date |
|---|---|---|---|
| the gate | 62 passed | 1234567 | 2026-01-01 |
"""
ROW = "| nightly: `fuzz` | no difference | 89abcde |"
# Lays a file down, starts a process that goes on, and takes the file away again where it is let.
LAYING = """#!/usr/bin/env python3
import subprocess, sys
laid = sys.argv[1]
open(laid, "w").close()
child = subprocess.Popen(["sleep", "60"])
open(laid + ".child", "w").write(str(child.pid))
print("laid", flush=True)
try:
    child.wait()
finally:
    import os
    os.remove(laid)
"""


def module_of(name):
    loader = importlib.machinery.SourceFileLoader(name, os.path.join(TOOLS, "dev", name))
    module = importlib.util.module_from_spec(importlib.util.spec_from_loader(name, loader))
    loader.exec_module(module)
    return module


class Nightly(unittest.TestCase):
    def setUp(self):
        self.nightly = module_of("nightly")
        self.folder = tempfile.TemporaryDirectory()
        self.addCleanup(self.folder.cleanup)

    def path(self, *names):
        return os.path.join(self.folder.name, *names)

    def test_a_row_goes_to_the_end_and_later_takes_the_place_of_the_old_one(self):
        table = self.path("TESTING.md")
        with open(table, "w", encoding="utf-8") as file:
            file.write(TABLE)
        with unittest.mock.patch.object(self.nightly, "TABLE", table):
            self.nightly.put_row("swollen", "0 failed", "89abcde")
            self.nightly.put_row("fuzz", "one difference", "89abcde")
            self.nightly.put_row("fuzz", "no difference", "89abcde")
        with open(table, encoding="utf-8") as file:
            text = file.read()
        self.assertTrue(text.startswith(TABLE))
        rows = text[len(TABLE):].splitlines()
        self.assertEqual(len(rows), 2)
        self.assertTrue(rows[0].startswith("| nightly: `swollen` | 0 failed | 89abcde |"))
        self.assertTrue(rows[1].startswith(ROW))

    def test_of_many_runs_those_that_failed_are_named(self):
        told = self.nightly.told
        self.assertEqual(told([([], True, "all well")]), "all well")
        self.assertEqual(told([(["one"], True, "x"), (["two"], False, "1 failed")]), "1 of 2 passed; two: 1 failed")

    def test_a_script_is_ended_with_what_it_started_and_puts_back_what_it_laid(self):
        os.mkdir(self.path("dev"))
        script, laid = self.path("dev", "laying"), self.path("laid")
        with open(script, "w", encoding="utf-8") as file:
            file.write(LAYING)
        os.chmod(script, os.stat(script).st_mode | stat.S_IXUSR)
        with unittest.mock.patch.object(self.nightly, "TOOLS", self.folder.name):
            is_passed, line = self.nightly.run("laying", [laid], 2)
        self.assertFalse(is_passed)
        self.assertIn("ended when its time was spent", line)
        self.assertIn("laid", line)
        self.assertFalse(os.path.exists(laid))
        with open(laid + ".child", encoding="utf-8") as file:
            child = int(file.read())
        self.assertTrue(self.is_gone(child))

    def is_gone(self, process):
        for _ in range(100):
            try:
                with open(f"/proc/{process}/stat", encoding="utf-8") as file:
                    if file.read().rsplit(")", 1)[1].split()[0] == "Z":
                        return True
            except FileNotFoundError:
                return True
            time.sleep(0.05)
        return False


if __name__ == "__main__":
    unittest.main()
