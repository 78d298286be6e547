"""Boxes by their corners: an extent is its lowest corner and its highest, both of which belong to it."""
from collections import namedtuple

Extent = namedtuple("Extent", "low high")

# The limits of the program, for a box with all that is told of it.
SIDE, CELLS = 128, 262_144


def between(one, other):
    """The extent of any two corners that face each other."""
    return Extent(tuple(map(min, one, other)), tuple(map(max, one, other)))


def sized(low, size):
    """The extent of these sides at its lowest corner."""
    return Extent(low, tuple(at + side - 1 for at, side in zip(low, size)))


def size_of(extent):
    """The three sides."""
    return tuple(last - first + 1 for first, last in zip(*extent))


def count_of(size):
    """How many cells a box of these sides has."""
    return size[0] * size[1] * size[2]


def grown(extent, by):
    """The extent with `by` layers more on each side."""
    return Extent(tuple(at - by for at in extent.low), tuple(at + by for at in extent.high))


def within(extent, other):
    """What two extents share, or None."""
    low, high = tuple(map(max, extent.low, other.low)), tuple(map(min, extent.high, other.high))
    return Extent(low, high) if all(first <= last for first, last in zip(low, high)) else None


def has(extent, at):
    """Whether a cell lies in it."""
    return all(low <= place <= high for low, place, high in zip(extent.low, at, extent.high))


def is_small(extent):
    """Whether it keeps the limits with one layer more on each side."""
    size = size_of(grown(extent, 1))
    return max(size) <= SIDE and count_of(size) <= CELLS


def about(one, other):
    """The extent about two."""
    return Extent(tuple(map(min, one.low, other.low)), tuple(map(max, one.high, other.high)))


def told(extent):
    """An extent as the words of a command line."""
    return "--from {} {} {} --to {} {} {}".format(*extent.low, *extent.high)
