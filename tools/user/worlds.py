"""Saved worlds of Java Edition (Minecraft Wiki, "Java Edition level format"): which chunks there are, and the blocks of
a box. Nothing is ever written to a world."""
import os

import dimensions
import extents
from boxes import Box
from chunks import SIDE, Chunk
from level_files import Level
from refusals import Refusal
from region_files import RegionFile
from session_locks import is_held
from wrong_files import of_world

AIR = ("minecraft:air", {})
# The box about a point: its sides, and how far the point stands from its lowest corner.
AROUND, AT = (76, 40, 76), (38, 16, 38)


class World:
    """A dimension of a saved world.

    name          the name of the world's folder
    dimension     the dimension, as "minecraft:overworld"
    level         what level.dat tells
    is_open       whether the game has it open
    data_version  the version of the game's data by level.dat, or else of the newest chunk read; 0 before any is"""

    def __init__(self, folder, dimension=None):
        self.name = os.path.basename(os.path.abspath(folder))
        wrong = of_world(folder)
        if wrong is not None:
            raise Refusal(f"{folder} {wrong}")
        if not os.path.isdir(folder):
            raise Refusal(f"{folder} is no folder of a saved world")
        self.level = Level(folder)
        self.dimension = dimension or dimensions.only_one(folder)
        self.folder = dimensions.folder_of(folder, self.dimension)
        if self.folder is None:
            looked = " or ".join(dimensions.folders(self.dimension))
            raise Refusal(f"{folder} has no region files of {self.dimension.split('minecraft:')[-1]} (in {looked})")
        self.is_open = is_held(folder)
        self.data_version = self.level.data_version or 0
        self.chunks = {}

    def chunk(self, x, z):
        """A chunk by its coordinates, or None where it isn't there."""
        if (x, z) not in self.chunks:
            self.chunks[x, z] = self.read(x, z)
        return self.chunks[x, z]

    def read(self, x, z):
        """A chunk from its file, or None where it isn't there."""
        file = RegionFile(self.folder, x, z)
        try:
            data = file.chunk(x, z)
            found = None if data is None else Chunk(data, x, z)
        except Refusal as why:
            raise why.at(f"region file {file.name}: chunk {x} {z}") from None
        if found and found.is_whole and self.level.data_version is None:
            self.data_version = max(self.data_version, found.data_version)
        return found

    def whole(self, x, z):
        """A chunk that the game has made and finished, or None."""
        found = self.chunk(x, z)
        return found if found and found.is_whole else None

    def heights(self):
        """The lowest and the highest layer in which blocks can be."""
        return dimensions.heights(self.dimension, self.data_version, filter(None, self.chunks.values()))


def chunks_of(extent):
    """The coordinates of the chunks that an extent has cells of, from north to south, then from west to east."""
    (west, _, north), (east, _, south) = extent
    return [(x, z) for z in range(north // SIDE, south // SIDE + 1) for x in range(west // SIDE, east // SIDE + 1)]


def extent_around(world, point):
    """The largest extent about a point, up to 76 x 40 x 76, within the heights of the world and the chunks that are
    there and finished. It has 16 layers below the point, where the heights allow."""
    x, y, z = point
    home = x // SIDE, z // SIDE
    require_chunks(world, [home])
    low, high = world.heights()
    if not low <= y <= high:
        raise Refusal(f"y {y} lies outside of the world, whose layers are {low} to {high}")
    bottom = min(max(y - AT[1], low), high - AROUND[1] + 1)
    wanted = extents.sized((x - AT[0], bottom, z - AT[2]), AROUND)
    west, east, north, south = grown(world, home, wanted)
    reached = (west * SIDE, bottom, north * SIDE), (east * SIDE + 15, wanted.high[1], south * SIDE + 15)
    return extents.Extent(tuple(map(max, wanted.low, reached[0])), tuple(map(min, wanted.high, reached[1])))


def extent_within(world, point, radius):
    """The extent of `radius` blocks about a point on each side, within the world's heights."""
    require_chunks(world, [(point[0] // SIDE, point[2] // SIDE)])
    low, high = world.heights()
    return extents.Extent((point[0] - radius, max(low, point[1] - radius), point[2] - radius),
                          (point[0] + radius, min(high, point[1] + radius), point[2] + radius))


def extent_of_chunks(world, places):
    """The extent of chunks, told by their coordinates, in the world's whole height."""
    (west, north), (east, south) = places
    require_chunks(world, [(x, z) for x in range(west, east + 1) for z in range(north, south + 1)])
    low, high = world.heights()
    return extents.Extent((west * SIDE, low, north * SIDE), (east * SIDE + SIDE - 1, high, south * SIDE + SIDE - 1))


def grown(world, home, wanted):
    """The first and the last column and row of chunks about the chunk at home, grown by a side in turn for as long as
    all chunks of a side are whole and have cells of the extent that is wanted."""
    near = set(chunks_of(wanted))
    west, north = east, south = home
    sides = [0, 1, 2, 3]
    while sides:
        side = sides.pop(0)
        rows, columns = range(north, south + 1), range(west, east + 1)
        more = [
            [(west - 1, z) for z in rows], [(east + 1, z) for z in rows],
            [(x, north - 1) for x in columns], [(x, south + 1) for x in columns],
        ][side]
        if near.issuperset(more) and all(world.whole(*at) for at in more):
            west, east, north, south = west - (side == 0), east + (side == 1), north - (side == 2), south + (side == 3)
            sides.append(side)
    return west, east, north, south


def require_chunks(world, places):
    """Refuses places none of whose chunks is there and finished."""
    if any(world.whole(*at) for at in places):
        return
    x, z = places[0]
    found, region, more = world.chunk(x, z), RegionFile(world.folder, x, z).name, len(places) - 1
    if found:
        raise Refusal(f"region file {region}: chunk {x} {z}: the game hasn't finished it (Status {found.status}): walk"
                      " there first")
    also = f", nor are {more} more of the box" if more else ""
    raise Refusal(f"region file {region}: chunk {x} {z} isn't there{also}: walk there in the game first")


def read_box(world, extent):
    """The blocks of an extent. Nothing is known of chunks that aren't there and finished, nor beyond the world's
    heights where the chunks have no section; within them a chunk's absent section is air."""
    size = extents.size_of(extent)
    box = Box(size, [], [Box.NO_ENTRY] * extents.count_of(size), extent.low, world.dimension)
    states = {}
    for x, z in chunks_of(extent):
        try:
            if world.whole(x, z):
                fill(box, states, world, x, z)
        except Refusal as why:
            raise why.at(f"region file {RegionFile(world.folder, x, z).name}: chunk {x} {z}") from None
    box.data_version = world.data_version
    return box


def missing(world, extent):
    """The chunks of an extent that aren't there and finished."""
    return [at for at in chunks_of(extent) if not world.whole(*at)]


def require_blocks(world, extent):
    """Refuses an extent of which nothing is known."""
    places = chunks_of(extent)
    require_chunks(world, places)
    low, high = world.heights()
    if low <= extent.high[1] and extent.low[1] <= high:
        return
    sections = [height for at in places if world.whole(*at) for height in world.chunk(*at).sections]
    if not any(extent.low[1] // SIDE <= height <= extent.high[1] // SIDE for height in sections):
        raise Refusal(f"the box lies outside of the world, whose layers are {low} to {high}")


def index_of(box, states, state):
    """The index of a block state in the box's palette, which gets it where it has it not."""
    key = state[0], tuple(sorted(state[1].items()))
    if key not in states:
        states[key] = len(box.palette)
        box.palette.append(state)
    return states[key]


def fill(box, states, world, x, z):
    """Puts in the blocks of one chunk, a run of a section's row at a time."""
    (left, bottom, back), (low, high) = box.corner, world.heights()
    wide, tall, long = box.size
    west, east = max(x * SIDE, left), min(x * SIDE + SIDE, left + wide)
    for height in range(bottom // SIDE, (bottom + tall - 1) // SIDE + 1):
        section = world.chunk(x, z).section(height)
        if section is None:
            palette, indices = [AIR], None
        else:
            palette, indices = section
        known = [index_of(box, states, state) for state in palette]
        for y in range(max(height * SIDE, bottom), min(height * SIDE + SIDE, bottom + tall)):
            if indices is None and not low <= y <= high:
                continue
            for at in range(max(z * SIDE, back), min(z * SIDE + SIDE, back + long)):
                to = box.number(west - left, y - bottom, at - back)
                if indices is None:
                    box.cells[to : to + east - west] = known * (east - west)
                    continue
                start = (y % SIDE * SIDE + at % SIDE) * SIDE
                run = indices[start + west % SIDE : start + west % SIDE + east - west]
                box.cells[to : to + east - west] = [known[index] for index in run]
