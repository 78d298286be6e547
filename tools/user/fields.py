"""A box with a border about it, which nothing enters: that saves asking where the box ends."""

OPAQUE = 15  # the opacity that stops light
CLOSED = 255  # what it costs to enter a cell without a row, or what lies about the box


class Field:
    """A box and its border, cell by cell.

    costs  what light loses on entering each cell (Minecraft Wiki, "Light"): one, or the opacity where that is more"""

    def __init__(self, box, rows):
        self.box = box
        self.wide, self.tall, self.long = box.size
        self.row, self.layer = self.wide + 2, (self.wide + 2) * (self.long + 2)
        self.classes = rows.rows_of(box.palette)
        self.costs = self.told(lambda row: max(1, row.opacity), CLOSED)

    def told(self, value, other):
        """A byte for each cell: what is told of its row; the other where it has none, and in the border."""
        values = bytes([value(row) if row else other for row in self.classes] + [other])
        found = bytearray([other]) * (self.layer * (self.tall + 2))
        for start, at in self.rows_of_cells():
            found[at : at + self.wide] = bytes([values[cell] for cell in self.box.cells[start : start + self.wide]])
        return found

    def rows_of_cells(self):
        """For each row of cells along x: the number of the first, and where it stands in the field."""
        return ((self.wide * (y * self.long + z), self.layer * (y + 1) + self.row * (z + 1) + 1)
                for y in range(self.tall) for z in range(self.long))

    def place(self, number):
        """Where a cell of the box stands in the field."""
        rest, x = divmod(number, self.wide)
        y, z = divmod(rest, self.long)
        return self.layer * (y + 1) + self.row * (z + 1) + 1 + x
