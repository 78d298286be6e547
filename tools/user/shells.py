"""What stands around a box of a world: one layer more on each side, its shell, as states of made names whose rows say
what a cell of it is to the box. Its light is that which arrives there in the world, as if the cell itself shone, so the
light inside the box is the world's. Nothing is planned in the shell: it has no room and no place for a torch, but where
a mob in the box's highest layer has its head."""
import re

from boxes import Box
from fields import Field
from rows import Row

MARGIN = 16  # layers about a box that are read: light that comes from farther has faded
BRIGHTEST = 15
SHINES = re.compile(rb"[^\0]")


def outer(size):
    """The numbers of the cells of the outermost layers of a box of these sides, and whether each is of the highest."""
    wide, tall, long = size
    for y in range(tall):
        for z in range(long):
            start, is_high = (y * long + z) * wide, y == tall - 1
            if y in (0, tall - 1) or z in (0, long - 1):
                yield from ((start + x, is_high) for x in range(wide))
            else:
                yield start, is_high
                yield start + wide - 1, is_high


def light_of(field):
    """The block light of each cell of a field (Minecraft Wiki, "Light"), by what shines in it: from the brightest down,
    each round has the cells that reached its level."""
    levels, rounds = field.told(lambda row: row.emission, 0), [[] for _ in range(BRIGHTEST + 1)]
    for found in SHINES.finditer(bytes(levels)):
        rounds[levels[found.start()]].append(found.start())
    costs, steps = field.costs, (-1, 1, -field.row, field.row, -field.layer, field.layer)
    for level in range(BRIGHTEST, 1, -1):
        for at in rounds[level]:
            if levels[at] != level:
                continue
            for step in steps:
                other = at + step
                brought = level - costs[other]
                if brought > levels[other]:
                    levels[other] = brought
                    rounds[brought].append(other)
    return levels


def shelled(box, around, rows, headroom):
    """A box as the planner reads it, whose outermost layers are its shell, and the rows of the shell's states. `around`
    is a larger box of the same world, `rows` tells those of the table, `headroom` the free cells that a mob needs."""
    field = Field(around, rows)
    levels = light_of(field)
    offset = [at - low for at, low in zip(box.corner, around.corner)]
    classes = rows.rows_of(box.palette)
    found = Box(box.size, list(box.palette), box.cells[:], box.corner, box.dimension, box.data_version, box.name)
    made = {}
    for number, is_high in outer(box.size):
        index = box.cells[number]
        if index == box.NO_ENTRY:
            continue
        at = field.place(around.number(*(place + more for place, more in zip(box.position(number), offset))))
        row, has_head = classes[index], is_high and headroom == 2 and classes[index].free
        what = row.opacity, levels[at], has_head, row.stand, row.top, row.side
        if what not in made:
            made[what] = len(found.palette)
            found.palette.append((f"shell:{len(made)}", {}))
        found.cells[number] = made[what]
    shell_rows = [
        Row(found.palette[at][0].encode(), {}, opacity, level, has_head, stand, False, top, side)
        for (opacity, level, has_head, stand, top, side), at in made.items()
    ]
    return found, shell_rows
