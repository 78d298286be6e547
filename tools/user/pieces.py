"""The pieces in which an area is planned: caves that fit are planned whole, several small ones together; what doesn't
fit is cut where it is narrowest."""
from collections import namedtuple

import cuts
import extents
from extents import about

# An extent to plan, and a cell of each cave that is planned in it; none where it is a part of caves that are cut, and
# all that lies in it is planned. Its torches are those that stand in its caves, told by their places.
Piece = namedtuple("Piece", "extent seeds torches")


def pieces_of(caves):
    """The pieces for these caves: first those that are whole."""
    due = [cave for cave in caves if cave.has_room]
    whole = [cave for cave in due if extents.is_small(cave.extent)]
    return [*together(whole), *parts([cave for cave in due if not extents.is_small(cave.extent)])]


def together(caves):
    """Caves that fit, those near to each other in one piece."""
    found, group = [], None
    for cave in sorted(caves, key=lambda cave: [at // 64 for at in cave.extent.low] + list(cave.seed)):
        joint, torches = group and about(group.extent, cave.extent), [at for at, _ in cave.torches]
        if group and extents.is_small(joint):
            group = Piece(joint, [*group.seeds, cave.seed], group.torches + torches)
        else:
            found += [group] if group else []
            group = Piece(cave.extent, [cave.seed], torches)
    return found + ([group] if group else [])


def parts(caves):
    """The parts of caves that don't fit."""
    if not caves:
        return []
    torches = [at for cave in caves for at, _ in cave.torches]
    return [Piece(extent, [], [at for at in torches if extents.has(extent, at)]) for extent in cut(cuts.cells_of(caves))]


def cut(cells):
    """The extents of the parts of these cells."""
    extent = cells.extent()
    if extents.is_small(extent):
        yield extent
        return
    size = extents.size_of(extent)
    axis = size.index(max(size))
    for part in cells.parted(axis, cuts.narrowest(cells, axis, extent)):
        yield from cut(part)
