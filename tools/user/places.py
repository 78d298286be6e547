"""Where a torch may stand or hang, and what a map shows of a cell, by the rows of a table (docs/FORMATS.md)."""
from fields import Field

PUT, TOP, SIDE = 1, 2, 4


def hangs_of(box, rows):
    """How a torch hangs in each cell that can have one, by the cell's number: the first way that fits."""
    field = Field(box, rows)
    told = field.told(lambda row: row.put * PUT + row.top * TOP + row.side * SIDE, 0)
    ways = [("floor", -field.layer, TOP), ("north", field.row, SIDE), ("east", -1, SIDE), ("south", -field.row, SIDE),
            ("west", 1, SIDE)]
    found = {}
    for start, at in field.rows_of_cells():
        for x in range(field.wide):
            if told[at + x] & PUT:
                hang = next((hang for hang, step, flag in ways if told[at + x + step] & flag), None)
                if hang is not None:
                    found[start + x] = hang
    return found


def sign_of(row):
    """What the layers of a plan draw of a cell that has no new torch."""
    return "#" if row is None else "*" if row.emission else "." if row.free else "#"
