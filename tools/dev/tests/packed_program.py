"""The program that lies packed in dist/, for tests that run it: nothing is built."""
import gzip
import os
import platform
import subprocess
import unittest

import paths  # it makes the modules of tools/dev known
from repository import TOP

MACHINE = "aarch64" if platform.machine() == "aarch64" else "x86_64"
PACKED = os.path.join(TOP, "dist", f"torchplan-{MACHINE}-linux.gz")


def runs_here(program):
    """Whether the system runs a program."""
    try:
        return subprocess.run([program, "--version"], stdout=subprocess.PIPE, stderr=subprocess.PIPE).returncode == 0
    except OSError:
        return False


def unpacked(folder):
    """The path of the program, which is unpacked into a folder. A test is skipped where the system doesn't run it."""
    path = os.path.join(folder, "torchplan")
    with gzip.open(PACKED, "rb") as packed, open(path, "wb") as file:
        file.write(packed.read())
    os.chmod(path, 0o755)
    if not runs_here(path):
        raise unittest.SkipTest("the program of dist/ doesn't run here")
    return path
