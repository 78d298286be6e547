"""What the planner answers of a cave: its dark cells, its levels, its plan, and the verdict on the plan's proof; and of
block states: the rows that serve them."""
import os
import sys
import tempfile
from collections import namedtuple

from folders import put
from plans import read_dark, read_levels, read_plan, read_rows
from program import EDGE
from refusals import Refusal, unwritable
from structures import structure_file

REJECTED, STOPPED = 4, 5  # the status of a proof that isn't accepted, of a plan that may have more torches than needed
# A turn takes up to 30 microseconds for each dark cell of its region. With these turns, over the number of dark cells,
# all ends within some two minutes: five whole floors of 128 x 128, the most that a box holds, get 48 turns each.
WORK, MOST = 4_000_000, 1_000_000

# The cells that are dark now, and what the planner says of free cells at the box's edge (None where it has none).
Darkness = namedtuple("Darkness", "cells edge")


def answer(program, command, words, path, well=(0,)):
    """Runs a command whose output goes to a file; its status, the text, and what it said."""
    try:
        with open(path, "w+", encoding="utf-8") as out:
            status, kept = program.run(command, words, out, well)
            out.seek(0)
            return status, out.read(), kept
    except OSError as fault:
        raise unwritable(os.path.basename(path), fault) from None


def turns_for(dark):
    """How many turns a region gets, unless told."""
    return min(WORK // max(1, len(dark)), MOST)


def plan_words(told, dark):
    """The words of `plan` alone, by the words of the command line."""
    words = [] if told.to_the_end else ["--turns", str(told.turns or turns_for(dark))]
    words += ["--workers", str(told.workers)] if told.workers else []
    return words + ["--progress"] * (told.progress or sys.stderr.isatty())


def darkness(program, folder, name="plan.txt"):
    """Has the planner tell the dark cells of the folder's cave.nbt, by a file of that name."""
    path = lambda name: os.path.join(folder, name)
    _, text, kept = answer(program, "dark", [path("cave.nbt"), "--progress"], path(name))
    return Darkness(read_dark(text), kept.get(EDGE))


def levels(program, folder, *plan):
    """Has it tell the level of each cell of that cave, by their numbers; with the torches of a plan where a file of the
    folder is named that has one."""
    path = lambda name: os.path.join(folder, name)
    _, text, _ = answer(program, "levels", list(map(path, ["cave.nbt", *plan])), path("plan.levels"))
    os.remove(path("plan.levels"))
    return read_levels(text)


def rows(program, states, table):
    """Has it tell the row of each of these block states by a table, None where none fits."""
    with tempfile.TemporaryDirectory() as folder:
        palette = put(folder, "states.nbt", structure_file((0, 0, 0), states, []))
        words = [palette, "--table", table.path or put(folder, "table.toml", table.data)]
        _, text, _ = answer(program, "rows", words, os.path.join(folder, "states.rows"))
    return read_rows(text, states)


def planned(program, folder, told, dark):
    """Has it plan that cave: the plan, and the verdict on its proof, which is None where the search was stopped. It
    leaves plan.txt in the folder, and plan.proof and plan.check where no fewer torches do."""
    path = lambda name: os.path.join(folder, name)
    cave, proof = path("cave.nbt"), path("plan.proof")
    words = [cave, "--proof", proof, *plan_words(told, dark)]
    status, text, _ = answer(program, "plan", words, path("plan.txt"), (0, STOPPED))
    if status == STOPPED:
        os.remove(proof)
        return read_plan(text), None
    return read_plan(text), verdict(program, folder)


def verdict(program, folder):
    """What the checker says of the folder's proof, which it has to accept."""
    path = lambda name: os.path.join(folder, name)
    words = [path("cave.nbt"), path("plan.proof")]
    status, text, _ = answer(program, "check", words, path("plan.check"), (0, REJECTED))
    if status == REJECTED:
        raise Refusal(f"check says of the proof: {text.strip()}", REJECTED)
    return text.strip()
