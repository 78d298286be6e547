"""A part of a box as bits, one for each cell, in which light spreads in all directions at once."""
from fields import CLOSED
from rows import TORCH

BRIGHT = TORCH.emission
REACH = BRIGHT - 1  # the most steps that light of a torch goes
ONE, NONE = ord("1"), ord("0")


class Window:
    """The cells of a field about a position, as far as a side of the box. A row and a layer have one place more, which
    is closed, so that no step leads from one into the next.

    masks  for each cost the cells that cost it to enter"""

    def __init__(self, field, middle, radius):
        self.low = [max(0, at - radius) for at in middle]
        high = [min(side - 1, at + radius) for at, side in zip(middle, field.box.size)]
        wide, tall, long = (last - first + 1 for first, last in zip(self.low, high))
        self.size = wide, tall, long
        self.row, self.layer = wide + 1, (wide + 1) * (long + 1)
        costs, closed_row = bytearray(), bytes([CLOSED]) * self.row
        first = field.place(field.box.number(*self.low))
        for start in range(first, first + tall * field.layer, field.layer):
            for at in range(start, start + long * field.row, field.row):
                costs += field.costs[at : at + wide]
                costs.append(CLOSED)
            costs += closed_row
        costs.reverse()  # the first cell is the lowest bit
        self.masks = {cost: bits_where(costs, cost) for cost in set(costs) if cost < BRIGHT}

    def has(self, at):
        return all(low <= place < low + side for low, place, side in zip(self.low, at, self.size))

    def bit(self, x, y, z):
        """The place of a cell's bit."""
        x, y, z = x - self.low[0], y - self.low[1], z - self.low[2]
        return y * self.layer + z * self.row + x

    def near(self, cells):
        """The cells beside these."""
        return (cells << 1 | cells >> 1 | cells << self.row | cells >> self.row | cells << self.layer
                | cells >> self.layer)

    def spread(self, bit):
        """The cells that have at least each level, 0 to 15, by a torch in a cell alone; level 0 isn't told."""
        found, near = [0] * 16, [0] * 16
        found[BRIGHT] = 1 << bit
        for level in range(BRIGHT - 1, 0, -1):
            near[level + 1] = self.near(found[level + 1])
            cells = found[level + 1]
            for cost, mask in self.masks.items():
                if level + cost <= BRIGHT:
                    cells |= near[level + cost] & mask
            found[level] = cells
        return found


    def levels(self, spread, bits):
        """The level of each of these cells that has any, told by their bits: by what `spread` found."""
        size = self.layer * self.size[1] // 8 + 1
        told = [cells.to_bytes(size, "little") for cells in spread[: BRIGHT + 1]]
        found = {}
        for cell, bit in bits.items():
            at, mask = bit >> 3, 1 << (bit & 7)
            if told[1][at] & mask:
                found[cell] = max(level for level in range(1, BRIGHT + 1) if told[level][at] & mask)
        return found


def bits_where(costs, cost):
    """A bit for each byte that is this one, the last byte's the lowest."""
    table = bytearray([NONE]) * 256
    table[cost] = ONE
    return int(costs.translate(table), 2)


def count_of(cells):
    return bin(cells).count("1")


if hasattr(int, "bit_count"):
    count_of = int.bit_count
