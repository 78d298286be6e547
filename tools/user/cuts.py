"""The cells of caves that don't fit a box, and where these caves are narrowest."""
from extents import Extent
from windows import count_of


class Cells:
    """Cells as bits.

    left  the x of the lowest bit
    rows  for each row along x that has cells, by its y and z, a number with a bit for each of them"""

    def __init__(self, left, rows):
        self.left, self.rows = left, {at: row for at, row in rows.items() if row}

    def extent(self):
        """The extent about the cells."""
        whole = 0
        for row in self.rows.values():
            whole |= row
        heights, depths = zip(*self.rows)
        low = self.left + (whole & -whole).bit_length() - 1, min(heights), min(depths)
        return Extent(low, (self.left + whole.bit_length() - 1, max(heights), max(depths)))

    def parted(self, axis, plane):
        """The cells before a plane across an axis, and those behind it: from this coordinate on."""
        if axis > 0:
            is_before = lambda at: at[axis - 1] < plane
            return (Cells(self.left, {at: row for at, row in self.rows.items() if is_before(at)}),
                    Cells(self.left, {at: row for at, row in self.rows.items() if not is_before(at)}))
        by = plane - self.left
        mask = (1 << by) - 1
        return (Cells(self.left, {at: row & mask for at, row in self.rows.items()}),
                Cells(plane, {at: row >> by for at, row in self.rows.items()}))

    def touching(self, axis, planes):
        """How many cells have a neighbour across each of these planes."""
        if axis == 0:
            counted = counts_of(row & row << 1 for row in self.rows.values())
            return {plane: counted(plane - self.left) for plane in planes}
        found = dict.fromkeys(planes, 0)
        for (y, z), row in self.rows.items():
            plane, beside = (y, (y - 1, z)) if axis == 1 else (z, (y, z - 1))
            if plane in found:
                found[plane] += count_of(row & self.rows.get(beside, 0))
        return found


def counts_of(numbers):
    """How many of these numbers have a bit, told by its place. The counts of all bits are added up at once: their digits
    for 1, for 2, for 4 and so on are a number each."""
    digits = []
    for carry in numbers:
        for place, digit in enumerate(digits):
            digits[place], carry = digit ^ carry, digit & carry
            if not carry:
                break
        else:
            digits.append(carry)
    return lambda bit: sum((digit >> bit & 1) << place for place, digit in enumerate(digits))


def cells_of(caves):
    """The cells of caves."""
    left, rows = min(cave.extent.low[0] for cave in caves), {}
    for cave in caves:
        numbers = iter(cave.runs)
        for first, last, y, z in zip(numbers, numbers, numbers, numbers):
            rows[y, z] = rows.get((y, z), 0) | (2 << last - left) - (1 << first - left)
    return Cells(left, rows)


def narrowest(cells, axis, extent):
    """The plane across an axis where fewest cells touch, in the middle half of the extent about them."""
    first, last = extent.low[axis], extent.high[axis]
    quarter = (last - first + 1) // 4
    planes = range(first + max(1, quarter), last + 1 - quarter)
    touching = cells.touching(axis, planes)
    return min(planes, key=lambda plane: (touching[plane], abs(2 * plane - first - last - 1)))
