"""The caves of an area of a world: what no light crosses lies apart. They are found a row of chunks at a time, so the
memory that this takes is that of a row of chunks, and of what is told of the caves."""
import re
from array import array
from collections import namedtuple

import worlds
from chunks import SIDE
from extents import Extent, about
from marks import marked
from unknowns import unknown_names

RUN = re.compile(rb"\x01+")

# A cave: the extent about it, one of its cells, the runs of its cells along x (of each the first x, the last, y and z,
# one behind the other), whether a mob could spawn in it if it is dark, and where torches stand in it: places with states.
Cave = namedtuple("Cave", "extent seed runs has_room torches")


class Labels:
    """The caves that were begun, each by a number; two that turn out to be one are joined."""

    def __init__(self):
        self.parents, self.caves = [], []

    def root(self, label):
        while self.parents[label] != label:
            self.parents[label] = label = self.parents[self.parents[label]]
        return label

    def begin(self, at):
        self.parents.append(len(self.parents))
        self.caves.append(Cave(Extent(at, at), at, array("i"), False, []))
        return len(self.parents) - 1

    def join(self, one, other):
        one, other = self.root(one), self.root(other)
        if one != other:
            # the smaller goes into the larger
            if len(self.caves[one].runs) < len(self.caves[other].runs):
                one, other = other, one
            self.parents[other] = one
            cave, more = self.caves[one], self.caves[other]
            cave.runs.extend(more.runs)
            cave.torches.extend(more.torches)
            extent = about(cave.extent, more.extent)
            self.caves[one] = cave._replace(extent=extent, has_room=cave.has_room or more.has_room)
            self.caves[other] = None
        return one

    def add(self, label, first, last, y, z, has_room):
        """Adds a run of cells along x to a cave."""
        label = self.root(label)
        cave = self.caves[label]
        extent = about(cave.extent, Extent((first, y, z), (last, y, z)))
        cave.runs.extend((first, last, y, z))
        self.caves[label] = Cave(extent, cave.seed, cave.runs, cave.has_room or has_room, cave.torches)

    def stands(self, label, at, state):
        """Adds a torch to a cave. One that a table calls opaque stands in none."""
        if label is not None:
            self.caves[self.root(label)].torches.append((at, state))


def caves_of(world, extent, rows, headroom):
    """The caves of an extent, in the order of their first cells from north to south, and the names of its blocks that
    no row fits."""
    labels, before, unknown = Labels(), {}, {}
    (left, low, north), (right, high, south) = extent
    for first in range(north, south + 1, SIDE):
        last = min(first + SIDE - 1, south)
        box = worlds.read_box(world, Extent((left, low - 1, first), (right, high + 1, last)))
        unknown.update(dict.fromkeys(unknown_names(box, rows)))
        passes, spawns, torches = marked(box, rows, headroom)
        has_torches = 1 in torches
        for z in range(first, last + 1):
            now = {}
            for y in range(low, high + 1):
                start = box.number(0, y - low + 1, z - first)
                line = passes[start : start + box.size[0]]
                room = spawns[start : start + box.size[0]]
                now[y] = [run(labels, found.span(), left, y, z, room, now.get(y - 1, ()), before.get(y, ()))
                          for found in RUN.finditer(line)]
                for found in RUN.finditer(torches, start, start + box.size[0]) if has_torches else ():
                    for number in range(*found.span()):
                        at = box.position(number)
                        labels.stands(label_at(now[y], at[0]), box.worldly(at), box.state_at(*at))
            before = now
        world.chunks.clear()
    return [cave for cave in labels.caves if cave is not None], list(unknown)


def run(labels, span, left, y, z, room, below, behind):
    """Puts a run of cells into the cave that it belongs to: where it ends in the row, and the cave's label. `below` and
    `behind` are the runs of the rows beside it."""
    first, last = span
    label = None
    for (start, end), other in [*below, *behind]:
        if start < last and first < end:
            label = labels.root(other) if label is None else labels.join(label, other)
    if label is None:
        label = labels.begin((left + first, y, z))
    labels.add(label, left + first, left + last - 1, y, z, room.find(b"\1", first, last) >= 0)
    return span, label


def label_at(runs, x):
    """The label of the run that has an x, or None."""
    return next((label for (start, end), label in runs if start <= x < end), None)
