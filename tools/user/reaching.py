"""Where one gets to from a place by walking, jumping, climbing, swimming and falling, as far as blocks are known. It
errs towards more: what isn't full lets one through, and a jump carries four blocks."""

THROUGH, HOLDS = 1, 2  # one can be in the cell; one can rise in it, as in water or on a ladder
JUMP = 4
NEAR = 3  # a point that is no place to stand counts as the nearest place so far from it
BITS = {flag: bytes(ord("1") if kind & flag else ord("0") for kind in range(256)) for flag in (THROUGH, HOLDS)}


def flags_of(row):
    """What a cell of that row is to somebody who walks."""
    if row is None or row.stand or row.top or row.side:
        return 0
    return THROUGH if row.free else THROUGH | HOLDS


class Ground:
    """A box as numbers with a bit for each cell, and about it what nobody enters: a row of cells and a layer have one
    place more, which is closed, so that no step leads from one into the next.

    room    the cells in which somebody fits, with the feet there
    held    those of them from which one doesn't fall
    found   for 0, 1, 2 and so on the cells that feet have got to with at least that number of steps in the air left"""

    def __init__(self, box, rows):
        wide, tall, long = self.size = box.size
        self.row, self.layer = wide + 1, (wide + 1) * (long + 1)
        flags = bytes(map(flags_of, rows.rows_of(box.palette))) + b"\0"
        told, closed = bytearray(), bytes(self.row)
        for start in range(0, len(box.cells), wide):
            told += bytes([flags[cell] for cell in box.cells[start : start + wide]]) + b"\0"
            if (start // wide + 1) % long == 0:
                told += closed
        told.reverse()  # the first cell is the lowest bit
        through, holds = (int(told.translate(BITS[flag]), 2) for flag in (THROUGH, HOLDS))
        self.room = through & through >> self.layer
        self.held = self.room & (holds | ~(through << self.layer))
        self.found = [0] * (JUMP + 1)

    def bit(self, x, y, z):
        """The place of a cell's bit."""
        return y * self.layer + z * self.row + x

    def between(self, low, high):
        """The cells between two positions."""
        row = (2 << high[0]) - (1 << low[0])
        layer = sum(row << self.row * z for z in range(low[2], high[2] + 1))
        return sum(layer << self.layer * y for y in range(low[1], high[1] + 1))

    def keep(self, low, high):
        """Closes what doesn't lie between two positions."""
        inside = self.between(low, high)
        self.room, self.held = self.room & inside, self.held & inside

    def enter(self, cells):
        """Gets to cells, which are told as those found are; those that are new."""
        on_ground = cells[0] & self.held
        fresh = [(some & self.room | on_ground) & ~found for some, found in zip(cells, self.found)]
        self.found = [found | some for found, some in zip(self.found, fresh)]
        return fresh

    def walk(self, cells):
        """Gets to cells, and goes on from there as far as one gets within the box."""
        fresh = self.enter(cells)
        while any(fresh):
            risen = (fresh[0] & self.held) << self.layer
            fresh = self.enter([some >> self.layer | risen | self.beside(more) for some, more in zip(fresh, fresh[1:])]
                               + [fresh[JUMP] >> self.layer])

    def beside(self, cells):
        """The cells beside these in their layers."""
        return cells << 1 | cells >> 1 | cells << self.row | cells >> self.row if cells else 0


def nearest(point):
    """The places about a point, as near as may be, the nearest first."""
    steps = range(-NEAR, NEAR + 1)
    near = [(abs(x) + abs(y) + abs(z), y, x, z) for y in steps for z in steps for x in steps]
    for _, y, x, z in sorted(near, key=lambda step: (step[0], abs(step[1]), step)):
        yield point[0] + x, point[1] + y, point[2] + z


class Reached:
    """The cells that feet get to, in tiles: boxes of one size that lie side by side, from a corner on.

    low    the corner of the first tile, size its sides
    tiles  a bit for each cell of a tile, as bytes, by how many tiles it lies to the east and to the south"""

    def __init__(self, low, size, tiles):
        self.low, self.size, self.tiles = tuple(low), tuple(size), tiles
        self.row, self.layer = size[0] + 1, (size[0] + 1) * (size[2] + 1)

    def __call__(self, at):
        x, y, z = (place - low for place, low in zip(at, self.low))
        wide, tall, long = self.size
        tile = self.tiles.get((x // wide, z // long))
        if tile is None or not 0 <= y < tall:
            return False
        bit = y * self.layer + z % long * self.row + x % wide
        return bit >> 3 < len(tile) and bool(tile[bit >> 3] >> (bit & 7) & 1)

    def near(self, extent):
        """The part of it that has the cells of an extent."""
        (west, _, north), (east, _, south) = extent
        tile_of = lambda x, z: ((x - self.low[0]) // self.size[0], (z - self.low[2]) // self.size[2])
        first, last = tile_of(west, north), tile_of(east, south)
        return Reached(self.low, self.size, {
            at: tile for at, tile in self.tiles.items() if all(a <= b <= c for a, b, c in zip(first, at, last))})


def bytes_of(cells):
    """The bytes of a number, the lowest first."""
    return cells.to_bytes(cells.bit_length() + 7 >> 3, "little")


def reached_from(box, rows, point):
    """Whether one gets to a cell from a point, both told by the world's coordinates or the box's own; None where one
    can't stand at that point."""
    ground, low = Ground(box, rows), box.corner or (0, 0, 0)
    own = lambda at: tuple(place - first for place, first in zip(at, low))
    start = next((bit for bit in (ground.bit(*at) for at in nearest(own(point)) if box.has(*at))
                  if ground.room >> bit & 1), None)
    if start is None:
        return None
    ground.walk([1 << start] + [0] * JUMP)
    return Reached(low, box.size, {(0, 0): bytes_of(ground.found[0])})
