"""Of all plans with the same number of torches one with a bright light: torches are moved one by one to where they
stand better, while all cells stay lit. Better is, in each region: the darkest cell brighter, else more light in all."""
from collections import namedtuple

from fields import Field
from places import hangs_of
from plans import Torch
from windows import BRIGHT, REACH, Window, count_of

STEPS = 4  # the most steps that a torch moves at once
WORK = 20_000  # how many places are tried in all: some ten seconds

# A torch that may be moved: where it stands, and which level it brings to the dark cells of its region, by number.
Lamp = namedtuple("Lamp", "at levels")


class Region:
    """Dark cells that torches light together.

    cells  the number and the position of each
    base   the level of each by its number, without new torches
    lamps  the torches"""

    def __init__(self, box, field, base, cells, torches):
        self.box, self.field = box, field
        self.cells = [(number, *box.position(number)) for number in cells]
        self.base = {number: base[number] for number in cells}
        self.lamps = [self.lamp(torch) for torch in torches]

    def lamp(self, at):
        window = Window(self.field, at, REACH)
        levels = window.levels(window.spread(window.bit(*at)), self.inside(window))
        return Lamp(at, levels)

    def inside(self, window):
        """The region's cells in a window: the number of each and its bit."""
        (left, bottom, back), (wide, tall, long) = window.low, window.size
        right, top, front = left + wide, bottom + tall, back + long
        return {number: (y - bottom) * window.layer + (z - back) * window.row + x - left
                for number, x, y, z in self.cells if left <= x < right and bottom <= y < top and back <= z < front}

    def others(self, index, at, cells):
        """The light of these cells about a place but for one torch."""
        found = {number: self.base[number] for number in cells}
        for place, lamp in enumerate(self.lamps):
            if place != index and (at is None or are_near(lamp.at, at)):
                for number, level in lamp.levels.items():
                    if level > found.get(number, BRIGHT):
                        found[number] = level
        return found

    def counts(self):
        """How many cells have at least each level, 0 to 15."""
        best = self.others(None, None, self.base)
        return [sum(level >= least for level in best.values()) for least in range(16)]


def worth(counts):
    """What a region's light is worth: the level of its darkest cell, then all light together."""
    return max(level for level in range(16) if counts[level] == counts[0]), sum(counts)


def worth_by_few(counts):
    """The same, but where the darkest cell is no brighter, fewer that are as dark count more than light: a way to plans
    in which it is."""
    least, light = worth(counts)
    return least, counts[least + 1] if least < 15 else 0, light


class Search:
    """The moves of the torches of one region."""

    def __init__(self, region, hangs, need, work):
        self.region, self.hangs, self.need, self.work = region, hangs, need, work
        self.counts = region.counts()

    def best(self):
        """Moves the torches in two ways, and leaves them where the light is worth more."""
        first = self.region.lamps[:]
        self.run(worth)
        straight, found = self.region.lamps, worth(self.counts)
        self.region.lamps = first
        self.counts = self.region.counts()
        self.run(worth_by_few)
        self.run(worth)
        if worth(self.counts) <= found:
            self.region.lamps = straight

    def run(self, worth):
        """Moves torches until none stands better elsewhere, by what light is worth."""
        waiting = list(range(len(self.region.lamps)))
        while waiting and self.work > 0:
            index = waiting.pop(0)
            before = self.region.lamps[index].at
            if self.moved(index, worth):
                near = [place for place, lamp in enumerate(self.region.lamps) if are_near(lamp.at, before)]
                waiting += [place for place in near if place not in waiting]

    def moved(self, index, worth):
        """Moves a torch to the best place near it; whether there was a better one."""
        region, lamp = self.region, self.region.lamps[index]
        window = Window(region.field, lamp.at, REACH + STEPS)
        inside = region.inside(window)
        others = region.others(index, lamp.at, inside)
        lit = [0] * 16
        for number, level in others.items():
            for least in range(1, level + 1):
                lit[least] |= 1 << inside[number]
        cells = sum(1 << bit for bit in inside.values())
        seen = lambda spread: [len(inside)] + [count_of(cells & (spread[level] | lit[level])) for level in range(1, 16)]
        now = seen(window.spread(window.bit(*lamp.at)))
        rest = [count - part for count, part in zip(self.counts, now)]
        best, counts, place = worth(self.counts), self.counts, None
        for at in self.places(lamp.at):
            self.work -= 1
            spread = window.spread(window.bit(*at))
            if cells & ~(spread[self.need] | lit[self.need]):
                continue
            found = [part + more for part, more in zip(rest, seen(spread))]
            if worth(found) > best:
                best, counts, place = worth(found), found, at
        if place is None:
            return False
        region.lamps[index], self.counts = region.lamp(place), counts
        return True

    def places(self, at):
        """The places near one that can have a torch."""
        box, taken = self.region.box, {lamp.at for lamp in self.region.lamps}
        for y in range(-STEPS, STEPS + 1):
            for z in range(abs(y) - STEPS, STEPS - abs(y) + 1):
                for x in range(abs(y) + abs(z) - STEPS, STEPS - abs(y) - abs(z) + 1):
                    other = at[0] + x, at[1] + y, at[2] + z
                    if box.has(*other) and box.number(*other) in self.hangs and other not in taken:
                        yield other


def are_near(one, other):
    """Whether two torches, one of which may move, may light cells of one window."""
    return max(abs(a - b) for a, b in zip(one, other)) <= 2 * REACH + STEPS


def brightened(box, rows, base, regions, need):
    """Where the torches of regions stand better: the new torch by the number of each that moves. `base` has the
    level of each cell without them; a region is told by the numbers of its dark cells and of its torches."""
    field, hangs = Field(box, rows), hangs_of(box, rows)
    work, moved = WORK, {}
    for cells, torches in regions:
        region = Region(box, field, base, cells, [box.position(number) for number in torches])
        search = Search(region, hangs, need, work)
        search.best()
        work = search.work
        for number, lamp in zip(torches, region.lamps):
            new = box.number(*lamp.at)
            if new != number:
                moved[number] = Torch(*lamp.at, hangs[new])
    return moved
