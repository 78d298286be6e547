"""Boxes and plans made for the tests."""
import paths  # it makes the modules of tools/user known

from boxes import Box
from plans import Plan, Torch

STONE, AIR = ("minecraft:stone", {}), ("minecraft:air", {})


def floor_box(before, **more):
    """A floor of stone with a row of blocks over it, along x."""
    palette = [STONE]
    for state in before:
        if state not in palette:
            palette.append(state)
    wide = len(before)
    cells = [0] * wide + [palette.index(state) for state in before]
    return Box((wide, 2, 1), palette, cells, **more)


def plan_of(torches, at_least=None):
    """A plan with torches, each told as x, y, z and how it hangs."""
    return Plan([Torch(*torch) for torch in torches], 0, at_least, {})


def row_of_torches(count):
    """Torches on the floor, one beside the other along x."""
    return plan_of([(x, 1, 0, "floor") for x in range(count)])
