"""Light by rounds over the whole box, and dark cells, calculated apart from the program, for compare-dark."""
from caves import AIR, LANTERN, STONE, TORCH, WATER

OPACITY = {STONE: 15, AIR: 0, TORCH: 0, LANTERN: 0, WATER: 1}
EMISSION = {STONE: 0, AIR: 0, TORCH: 14, LANTERN: 15, WATER: 0}
FREE = {AIR, TORCH}


def near(at):
    x, y, z = at
    return [(x - 1, y, z), (x + 1, y, z), (x, y - 1, z), (x, y + 1, z), (x, y, z - 1), (x, y, z + 1)]


def box_of(size):
    x_side, y_side, z_side = size
    return [(x, y, z) for y in range(y_side) for z in range(z_side) for x in range(x_side)]


def levels_of(state, size):
    """Each round gives every cell the greatest level that it has or that a neighbour's light brings to it."""
    box = box_of(size)
    levels = {at: EMISSION[state(at)] for at in box}
    for _ in range(14):
        before = levels
        levels = {}
        for at in box:
            brought = max(before.get(other, 0) for other in near(at)) - max(1, OPACITY[state(at)])
            levels[at] = max(before[at], brought)
    return levels


def dark_cells(state, size, headroom, need=1):
    """The cells in which a mob could spawn and that have less light than is needed, in the order of their numbers."""
    levels = levels_of(state, size)
    inside = set(levels)
    dark = []
    for x, y, z in box_of(size):
        room = y > 0 and state((x, y, z)) in FREE and state((x, y - 1, z)) == STONE
        if headroom == 2:
            room = room and (x, y + 1, z) in inside and state((x, y + 1, z)) in FREE
        if room and levels[x, y, z] < need:
            dark.append((x, y, z))
    return dark
