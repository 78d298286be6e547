"""Caves made from seeds, for the scripts beside this file."""
import random

import repository  # it makes the modules of ../user known
from structures import structure_file

NAMES = ["minecraft:stone", "minecraft:air", "minecraft:torch", "minecraft:lantern", "minecraft:water"]
STONE, AIR, TORCH, LANTERN, WATER = range(5)


def structure(size, state_of, names=NAMES):
    """A structure file with an entry for each cell; a state is an index into the names."""
    x_side, y_side, z_side = size
    box = [(x, y, z) for y in range(y_side) for z in range(z_side) for x in range(x_side)]
    return structure_file(size, [(name, {}) for name in names], [(at, state_of(*at)) for at in box])


def cavern(seed, size):
    """Round rooms dug into stone, with water, torches and lanterns here and there: the state of each cell that isn't
    stone, by its coordinates."""
    rng = random.Random(seed)
    x_side, y_side, z_side = size
    cells = {}
    for _ in range(x_side * z_side // 60):
        cx, cy, cz = rng.randrange(x_side), rng.randrange(1, y_side - 1), rng.randrange(z_side)
        r = rng.randrange(2, 7)
        for x in range(max(1, cx - r), min(x_side - 1, cx + r + 1)):
            for y in range(max(1, cy - r // 2), min(y_side - 1, cy + r // 2 + 1)):
                for z in range(max(1, cz - r), min(z_side - 1, cz + r + 1)):
                    if (x - cx) ** 2 + 4 * (y - cy) ** 2 + (z - cz) ** 2 <= r * r:
                        cells[x, y, z] = AIR
    for at in list(cells):
        roll = rng.random()
        if roll < 0.002:
            cells[at] = TORCH
        elif roll < 0.003:
            cells[at] = LANTERN
        elif roll < 0.02:
            cells[at] = WATER
    return cells


def floors(size):
    """Floors of stone, each with two layers of air over it, as many as the box holds: the most dark cells and places
    that a box of 16 layers has."""
    x_side, y_side, z_side = size
    layers = [y for y in range(y_side) if y % 3 != 0 and y + y % 3 < y_side + 1]
    return {(x, y, z): AIR for y in layers for z in range(z_side) for x in range(x_side)}


def mine(seed, size):
    """A mine: corridors two high that cross, a room here and there, with torches along a third of the corridors."""
    rng = random.Random(seed)
    x_side, y_side, z_side = size
    cells = {}

    def dig(x, z):
        if 0 < x < x_side - 1 and 0 < z < z_side - 1:
            cells[x, 1, z] = cells[x, 2, z] = AIR

    rows = list(range(4, z_side - 2, 8))
    columns = list(range(4, x_side - 2, 8))
    for z in rows:
        for x in range(2, x_side - 2):
            dig(x, z)
    for x in columns:
        for z in range(rng.choice(rows), rng.choice(rows) + 1):
            dig(x, z)
    for _ in range(x_side * z_side // 400):
        cx, cz = rng.choice(columns), rng.choice(rows)
        for x in range(cx - rng.randrange(2, 5), cx + rng.randrange(2, 5)):
            for z in range(cz - rng.randrange(2, 5), cz + rng.randrange(2, 5)):
                dig(x, z)
    for z in rng.sample(rows, len(rows) // 3):
        for x in range(6, x_side - 2, 12):
            if cells.get((x, 1, z)) == AIR:
                cells[x, 1, z] = TORCH
    return cells


def open_from(floor_of, size, high=2):
    """Air of `high` layers above each column that has a floor, within walls."""
    x_side, y_side, z_side = size
    cells = {}
    for (x, z), floor in floor_of.items():
        if 0 < x < x_side - 1 and 0 < z < z_side - 1:
            cells.update({(x, y, z): AIR for y in range(floor + 1, min(floor + 1 + high, y_side))})
    return cells


def grotto(seed, size):
    """A flat cave with ragged walls: noise, smoothed four times."""
    rng = random.Random(seed)
    x_side, _, z_side = size
    columns = [(x, z) for x in range(x_side) for z in range(z_side)]
    is_open = {at: rng.random() < 0.56 for at in columns}
    for _ in range(4):
        near = lambda x, z: sum(is_open.get((x + i, z + j), False) for i in (-1, 0, 1) for j in (-1, 0, 1))
        is_open = {at: near(*at) >= 5 for at in columns}
    return open_from({at: 0 for at in columns if is_open[at]}, size, 3)


def rooms(seed, size):
    """Rooms of many sizes on one floor, each joined to the next by a corridor with a bend."""
    rng = random.Random(seed)
    x_side, _, z_side = size
    floor, last = {}, None
    for _ in range(x_side * z_side // 180):
        w, d = rng.randrange(3, 11), rng.randrange(3, 11)
        x, z = rng.randrange(1, x_side - w - 1), rng.randrange(1, z_side - d - 1)
        floor.update({(x + i, z + j): 0 for i in range(w) for j in range(d)})
        if last:
            floor.update({(i, last[1]): 0 for i in range(min(x, last[0]), max(x, last[0]) + 1)})
            floor.update({(x, j): 0 for j in range(min(z, last[1]), max(z, last[1]) + 1)})
        last = x, z
    return open_from(floor, size)


def cellars(seed, size):
    """Rooms of many sizes, each apart from all others by stone."""
    rng = random.Random(seed)
    x_side, _, z_side = size
    floor = {}
    for x in range(1, x_side - 8, 8):
        for z in range(1, z_side - 8, 8):
            w, d = rng.randrange(1, 8), rng.randrange(1, 8)
            floor.update({(x + i, z + j): 0 for i in range(w) for j in range(d)})
    return open_from(floor, size)


def hall(_, size):
    """A hall without a pillar."""
    x_side, _, z_side = size
    return open_from({(x, z): 0 for x in range(x_side) for z in range(z_side)}, size, 3)


def ledge(seed, size):
    """A slope of ledges: steps of a level or more, which light has to climb."""
    rng = random.Random(seed)
    x_side, y_side, z_side = size
    heights = {(x, z): 0 for x in range(x_side) for z in range(z_side)}
    for _ in range(x_side * z_side // 90):
        cx, cz, r = rng.randrange(x_side), rng.randrange(z_side), rng.randrange(3, 12)
        step = rng.choice((-2, -1, 1, 2))
        for at in heights:
            if (at[0] - cx) ** 2 + (at[1] - cz) ** 2 <= r * r:
                heights[at] = min(max(heights[at] + step, 0), y_side - 4)
    return open_from(heights, size, 3)


def noise(rng, size, step):
    """A number for each cell of the box: smooth noise, from numbers drawn every `step` cells of each side."""
    def along(side, every):
        shares = [side_at % every / every for side_at in range(side)]
        return [(at // every, share * share * (3 - 2 * share)) for at, share in enumerate(shares)]

    def between(low, high, share):
        return low + (high - low) * share

    counts = [side // every + 2 for side, every in zip(size, step)]
    drawn = [[[rng.random() for _ in range(counts[2])] for _ in range(counts[1])] for _ in range(counts[0])]
    found = {}
    for x, (i, a) in enumerate(along(size[0], step[0])):
        for y, (j, b) in enumerate(along(size[1], step[1])):
            for z, (k, c) in enumerate(along(size[2], step[2])):
                rows = [[between(drawn[i + p][j + q][k], drawn[i + p][j + q][k + 1], c) for q in (0, 1)] for p in (0, 1)]
                found[x, y, z] = between(between(*rows[0], b), between(*rows[1], b), a)
    return found


def crags(seed, size):
    """Ledges in rock, by noise in three dimensions: a quarter of the box is open."""
    rng = random.Random(seed)
    coarse, fine = noise(rng, size, (12, 8, 12)), noise(rng, size, (5, 3, 5))
    inner = [at for at in coarse if all(0 < side_at < side - 1 for side_at, side in zip(at, size))]
    height = {at: coarse[at] + 0.35 * fine[at] for at in inner}
    cut = sorted(height.values())[int(len(height) - 0.28 * size[0] * size[1] * size[2])]
    return {at: AIR for at in inner if height[at] > cut}


def pillars(seed, size):
    """A hall with a pillar here and there."""
    rng = random.Random(seed)
    x_side, _, z_side = size
    columns = [(x, z) for x in range(x_side) for z in range(z_side)]
    return open_from({at: 0 for at in columns if rng.random() > 0.03}, size, 3)


def tunnels(seed, size):
    """Winding tunnels, one or two wide, that cross."""
    rng = random.Random(seed)
    x_side, _, z_side = size
    floor = {}
    for _ in range(x_side * z_side // 500 + 1):
        x, z = rng.randrange(2, x_side - 2), rng.randrange(2, z_side - 2)
        dx, dz = rng.choice(((1, 0), (-1, 0), (0, 1), (0, -1)))
        for _ in range(rng.randrange(30, 90)):
            floor[x, z] = 0
            if rng.random() < 0.3:
                floor[x + abs(dz), z + abs(dx)] = 0
            if rng.random() < 0.2:
                dx, dz = rng.choice(((dz, dx), (-dz, -dx)))
            x, z = min(max(x + dx, 2), x_side - 3), min(max(z + dz, 2), z_side - 3)
    return open_from(floor, size)


def ring():
    """A ring of 28 cells round an 8 x 8 square, two high, in a box of 10 x 4 x 10."""
    return {(x, y, z): AIR for x in range(1, 9) for y in (1, 2) for z in range(1, 9) if x in (1, 8) or z in (1, 8)}


def felt_ring():
    """The file of the same ring in a block that the table beside it knows, with stone under three of its cells: three
    places for a torch, of which two light all."""
    state_of = lambda *at: AIR if at in ring() else STONE if at in {(1, 0, 1), (4, 0, 1), (8, 0, 1)} else len(NAMES)
    return structure((10, 4, 10), state_of, [*NAMES, "cave:felt"])


def felt_corridor():
    """The file of a corridor of 27 cells in that block, which holds no torch: nothing lights its cells."""
    is_free = lambda x, y, z: 0 < x < 28 and 0 < y < 3 and z == 1
    return structure((29, 4, 3), lambda *at: AIR if is_free(*at) else len(NAMES), [*NAMES, "cave:felt"])


FELT_TABLE = b'[[row]]\nname = "cave:felt"\nopacity = 15\nstand = true\n'


def file_of(cells, size):
    return structure(size, lambda x, y, z: cells.get((x, y, z), STONE))
