"""Where one gets to on foot over an area of a world. Chunks are read as the walk gets there, so the memory that this
takes is that of the chunks one gets to: of each cell a few bits."""
import extents
import worlds
from chunks import SIDE
from reaching import JUMP, Ground, Reached, bytes_of, nearest

NONE = [0] * (JUMP + 1)


class Walk:
    """A walk over an extent of a world; nobody enters what lies beyond."""

    def __init__(self, world, extent, rows):
        self.world, self.extent, self.rows = world, extent, rows
        self.low, self.tall = extent.low[1], extents.size_of(extent)[1]
        self.grounds = {}

    def ground(self, at):
        """The ground of a chunk, told by its coordinates, or None where the extent has nothing of it."""
        if at not in self.grounds:
            self.grounds[at] = self.read(at)
        return self.grounds[at]

    def read(self, at):
        whole = extents.sized((SIDE * at[0], self.low, SIDE * at[1]), (SIDE, self.tall, SIDE))
        inside = extents.within(self.extent, whole)
        if inside is None:
            return None
        box = worlds.read_box(self.world, whole)
        self.world.chunks.clear()
        ground = Ground(box, self.rows)
        ground.keep(*(tuple(place - low for place, low in zip(corner, whole.low)) for corner in inside))
        return ground

    def start_near(self, point):
        """The chunk and the cell of the place to stand that is nearest to a point, or None."""
        for x, y, z in nearest(point):
            if extents.has(self.extent, (x, y, z)):
                chunk = x // SIDE, z // SIDE
                cell = 1 << self.ground(chunk).bit(x % SIDE, y - self.low, z % SIDE)
                if self.ground(chunk).room & cell:
                    return chunk, cell
        return None

    def reached_from(self, point):
        """The cells that one gets to from a point; None where one can't stand there."""
        start = self.start_near(point)
        if start is None:
            return None
        waiting = {start[0]: [start[1], *NONE[1:]]}
        while waiting:
            at = next(iter(waiting))
            cells, ground = waiting.pop(at), self.ground(at)
            before = ground.found
            ground.walk(cells)
            for other, out in leaving(ground, at, before):
                if self.ground(other) is not None:
                    waiting[other] = [one | more for one, more in zip(waiting.get(other, NONE), out)]
        tiles = {at: bytes_of(ground.found[0]) for at, ground in self.grounds.items() if ground and ground.found[0]}
        return Reached((0, self.low, 0), (SIDE, self.tall, SIDE), tiles)


def leaving(ground, at, before):
    """The chunks beside a chunk into which one steps from it, each with the cells that are entered there: by the cells
    of it that weren't found before."""
    # a step to the side takes one of those that are left in the air
    fresh, last = [now & ~then for now, then in zip(ground.found, before)][1:] + [0], SIDE - 1
    high = ground.size[1] - 1
    for (x, z), first, far, by in (((1, 0), (last, 0), (last, last), -last), ((-1, 0), (0, 0), (0, last), last),
                                   ((0, 1), (0, last), (last, last), -last * ground.row),
                                   ((0, -1), (0, 0), (last, 0), last * ground.row)):
        face = ground.between((first[0], 0, first[1]), (far[0], high, far[1]))
        out = [(some & face) << by if by > 0 else (some & face) >> -by for some in fresh]
        if any(out):
            yield (at[0] + x, at[1] + z), out
