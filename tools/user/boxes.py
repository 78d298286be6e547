"""A box of blocks, as it was read from a structure file or from a saved world."""


class Box:
    """Blocks in a box. A cell's number is (y * Z + z) * X + x.

    size          the sides X, Y, Z
    palette       block states: pairs of a name (text, with its prefix) and its properties (texts by texts)
    cells         for each cell the index of its state in the palette, or NO_ENTRY
    corner        the world's coordinates of the box's lowest north-west corner, or None where they are not known
    dimension     the dimension, as "minecraft:overworld", or None where it is not known
    data_version  the version of the game's data that saved it, or None where the file doesn't say
    name          what to call it, for titles and file names
    made          the numbers of cells that the planner reads as something else than what stands there
    """

    NO_ENTRY = -1

    def __init__(self, size, palette, cells, corner=None, dimension=None, data_version=None, name=""):
        self.size, self.palette, self.cells = size, palette, cells
        self.corner, self.dimension, self.data_version, self.name = corner, dimension, data_version, name
        self.made = frozenset()

    def number(self, x, y, z):
        return (y * self.size[2] + z) * self.size[0] + x

    def has(self, x, y, z):
        return all(0 <= at < side for at, side in zip((x, y, z), self.size))

    def position(self, number):
        rest, x = divmod(number, self.size[0])
        y, z = divmod(rest, self.size[2])
        return x, y, z

    def part(self, low, size):
        """The box of these sides at a position, with the states that it has."""
        wide = size[0]
        starts = (self.number(low[0], low[1] + y, low[2] + z) for y in range(size[1]) for z in range(size[2]))
        cells = [cell for start in starts for cell in self.cells[start : start + wide]]
        used = sorted(set(cells) - {self.NO_ENTRY})
        places = {self.NO_ENTRY: self.NO_ENTRY, **{index: at for at, index in enumerate(used)}}
        corner = self.corner and self.worldly(low)
        states = [self.palette[index] for index in used]
        cells = [places[cell] for cell in cells]
        return Box(size, states, cells, corner, self.dimension, self.data_version, self.name)

    def worldly(self, at):
        """A position by the world's coordinates, or the box's own where the corner isn't known."""
        return tuple(at) if self.corner is None else tuple(place + low for place, low in zip(at, self.corner))

    def own(self, at):
        """The box's own position of a place that is told by the world's coordinates, where the corner is known."""
        return tuple(at) if self.corner is None else tuple(place - low for place, low in zip(at, self.corner))

    def state_at(self, x, y, z):
        """The block state there, or None where the box has no entry."""
        index = self.cells[self.number(x, y, z)]
        return None if index == self.NO_ENTRY else self.palette[index]
