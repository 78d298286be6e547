"""Where things of the repository are, and the programs built from it, for the scripts beside this file. Imported before
them, it makes the modules of ../user known."""
import os, subprocess, sys

TOOLS = os.path.dirname(os.path.dirname(os.path.abspath(__file__)))
TOP = os.path.dirname(TOOLS)
TORCHPLAN = os.path.join(TOP, "torchplan")
EXAMPLES = os.path.join(TOP, "examples")
PILLAR = os.path.join(TOP, "crates", "torchplan", "stdin")
sys.path.insert(1, os.path.join(TOOLS, "user"))  # before packages that others installed by the same names


def built(crate, *words):
    """The program of a crate, after `rt run` has proved and built it and run it once on the pillar."""
    folder = os.path.join(TOP, "crates", crate)
    with open(PILLAR, "rb") as pillar:
        ran = subprocess.run(["rt", "run", "--", *words], cwd=folder, stdin=pillar, capture_output=True)
    if ran.returncode != 0:
        sys.exit(ran.stderr.decode(errors="replace"))
    return os.path.join(folder, "out", crate)
