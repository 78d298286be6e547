"""What the gate does where one of its parts fails: .ci/run over stand-ins for what it calls."""
import os
import shutil
import subprocess
import tempfile
import unittest

import paths
from repository import TOP

# The first two run side by side, and the others one after another behind them.
FIRST = ["rt", "test-scripts"]
THEN = ["pack-program", "pack-targets", "try-files", "figures"]
STANDS_FOR = """#!/bin/sh
echo {name} "$@" | tee -a "$CALLED"
exit {status}
"""


class Gate(unittest.TestCase):
    def run_gate(self, failing=None):
        """The status of the gate where one part fails, what was called in turn, and the last line."""
        with tempfile.TemporaryDirectory() as room:
            path = lambda *names: os.path.join(room, *names)
            for folder in (".ci", "tools/dev", "bin"):
                os.makedirs(path(folder))
            shutil.copy(os.path.join(TOP, ".ci", "run"), path(".ci", "run"))
            for name in FIRST + THEN:
                part = path("bin", name) if name == "rt" else path("tools", "dev", name)
                with open(part, "w", encoding="utf-8") as file:
                    file.write(STANDS_FOR.format(name=name, status=int(name == failing)))
                os.chmod(part, 0o755)
            environment = {"PATH": os.pathsep.join([path("bin"), os.environ["PATH"]]), "CALLED": path("called")}
            ran = subprocess.run([path(".ci", "run")], env=environment, stdout=subprocess.PIPE, text=True)
            with open(path("called"), encoding="utf-8") as file:
                called = [line.split()[0] for line in file]
            return ran.returncode, sorted(called[:2]) + called[2:], ran.stdout.splitlines()[-1]

    def test_all_parts_are_run_and_the_last_line_is_that_of_rt(self):
        self.assertEqual(self.run_gate(), (0, FIRST + THEN, "rt ci"))

    def test_each_part_that_fails_stops_the_gate(self):
        for name in FIRST + THEN:
            status, called, _ = self.run_gate(name)
            self.assertEqual(status, 1, name)
            behind = THEN[: THEN.index(name) + 1] if name in THEN else []
            self.assertEqual(called, FIRST + behind)


if __name__ == "__main__":
    unittest.main()
