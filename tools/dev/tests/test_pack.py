"""What the gate says of a dist/ that isn't what the sources give."""
import gzip
import hashlib
import os
import shutil
import subprocess
import tempfile
import unittest

import paths  # it makes the modules of tools/dev known

from repository import TOOLS

KIT = "kit-1"
PROGRAM = b"a program"
PACKED = "dist/torchplan-x86_64-linux.gz"


def sum_of(data):
    return hashlib.sha256(data).hexdigest()


class Compared(unittest.TestCase):
    """A small checkout with a packed program, and a stand-in for rt."""

    def setUp(self):
        folder = tempfile.TemporaryDirectory()
        self.addCleanup(folder.cleanup)
        self.root = folder.name
        self.write("crates.txt", b"torchplan:\n")
        self.write("crates/torchplan/src/main.rt", b"fn main() {}\n")
        for name in ["pack-program", "sources.sh"]:
            self.write(f"tools/dev/{name}", b"")
            shutil.copy(os.path.join(TOOLS, "dev", name), self.path(f"tools/dev/{name}"))
        self.write("bin/rt", f'#!/bin/sh\necho "{KIT}"\n'.encode())
        os.chmod(self.path("bin/rt"), 0o755)
        self.pack()

    def path(self, name):
        return os.path.join(self.root, *name.split("/"))

    def write(self, name, data):
        os.makedirs(os.path.dirname(self.path(name)), exist_ok=True)
        with open(self.path(name), "wb") as file:
            file.write(data)

    def sum_of_sources(self):
        script = '. "$root/tools/dev/sources.sh" && sum_of_sources'
        ran = subprocess.run(["sh", "-c", script], env={**os.environ, "root": self.root}, stdout=subprocess.PIPE, text=True)
        return ran.stdout.strip()

    def pack(self, kit=KIT):
        lines = f"version 1.0\nkit {kit}\nglibc 2.34\nsources {self.sum_of_sources()}\nprogram {sum_of(PROGRAM)}\n".encode()
        self.write("dist/BUILT", lines + f"record {sum_of(lines)}\n".encode())
        self.write(PACKED, gzip.compress(PROGRAM))

    def compared(self):
        environment = {**os.environ, "PATH": self.path("bin") + os.pathsep + os.environ["PATH"]}
        ran = subprocess.run([self.path("tools/dev/pack-program"), "--compare"], env=environment, capture_output=True,
                             text=True, timeout=60)
        return ran.returncode, ran.stdout

    def assert_stops(self, line):
        status, said = self.compared()
        self.assertNotEqual(status, 0)
        self.assertIn(line, said)

    def test_another_source_stops_the_gate(self):
        self.write("crates/torchplan/src/main.rt", b"fn main() { }\n")
        self.assert_stops("stale: version 1.0 was packed from other sources")

    def test_another_kit_stops_the_gate(self):
        self.pack("kit-0")
        self.assert_stops("stale: version 1.0 was packed with another kit, kit-0")

    def test_no_program_stops_the_gate(self):
        shutil.rmtree(self.path("dist"))
        self.assert_stops("nothing is packed")

    def test_a_program_that_the_record_does_not_name_stops_the_gate(self):
        self.write(PACKED, gzip.compress(PROGRAM + b" more"))
        self.assert_stops("the program isn't the one that BUILT names")

    def test_where_the_sources_are_these_what_they_give_is_asked_for(self):
        self.assert_stops("no program is built here")


if __name__ == "__main__":
    unittest.main()
