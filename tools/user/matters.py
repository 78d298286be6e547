"""What doesn't matter to a plan: cells that may stay dark, and cells that may have no torch. A block under a cell that
may stay dark is read as no ground, a cell without a torch as no place: by rows of made names, alike in all else."""
from boxes import Box
from fields import OPAQUE, Field
from marks import marked
from rows import COLUMNS, Row
from shells import light_of
from windows import REACH, Window


def changed(box, rows, cells, column, word):
    """The box in which a column is false in these cells, and the rows that are new. The names of their states begin
    with a word."""
    found = Box(box.size, list(box.palette), box.cells[:], box.corner, box.dimension, box.data_version, box.name)
    made, new, classes = {}, [], rows.rows_of(box.palette)
    for number in cells:
        index = box.cells[number]
        if index not in made:
            made[index] = len(found.palette)
            new.append(classes[index]._replace(name=f"{word}:{len(new) + 1}".encode(), **{column: False}))
            found.palette.append((new[-1].name.decode(), {}))
        found.cells[number] = made[index]
    return found, new


def cells_with(box, rows, column):
    """The numbers of the cells whose row has a column."""
    has = {index for index, row in enumerate(rows.rows_of(box.palette)) if row and getattr(row, column)}
    return [number for number, cell in enumerate(box.cells) if cell in has]


def without_ground(box, rows, may_stay_dark, word="ignored"):
    """The box in which mobs stand on nothing below cells that may stay dark."""
    def is_below(number):
        x, y, z = box.position(number)
        return may_stay_dark(box.worldly((x, y + 1, z)))

    return changed(box, rows, filter(is_below, cells_with(box, rows, "stand")), "stand", word)


def without_places(box, rows, may_have_none):
    """The box in which no torch may be placed in some cells."""
    cells = [number for number in cells_with(box, rows, "put") if may_have_none(box.worldly(box.position(number)))]
    return changed(box, rows, cells, "put", "barred")


def in_any(extents):
    """Whether a cell lies in one of these extents."""
    return lambda at: any(all(a <= b <= c for a, b, c in zip(low, at, high)) for low, high in extents)


OTHER = Row(b"other:1", {}, 15, 0, *[False] * len(COLUMNS))


def alone(box, rows, seeds):
    """The box without other caves than those that have some cells, told by the world's coordinates, and the row of what
    stands in their place. Its outermost layers stay as they are."""
    field = Field(box, rows)
    own = lambda at: tuple(place - low for place, low in zip(at, box.corner))
    wide, tall, long = box.size
    is_open = {}
    for start, at in field.rows_of_cells():
        y, z = divmod(start // wide, long)
        if 0 < y < tall - 1 and 0 < z < long - 1:
            line = field.costs[at : at + wide]
            is_open.update((at + x, start + x) for x in range(1, wide - 1) if line[x] < OPAQUE)
    waiting = [field.place(box.number(*own(at))) for at in seeds]
    for at in waiting:
        is_open.pop(at, None)
    while waiting:
        at = waiting.pop()
        for step in (-1, 1, -field.row, field.row, -field.layer, field.layer):
            if is_open.pop(at + step, None) is not None:
                waiting.append(at + step)
    found = Box(box.size, [*box.palette, (OTHER.name.decode(), {})], box.cells[:], box.corner, box.dimension,
                box.data_version, box.name)
    for number in is_open.values():
        found.cells[number] = len(box.palette)
    return found, [OTHER]


def dark_in(box, rows, headroom, need):
    """The cells of a box in which a mob could spawn, since they have less light than is needed."""
    _, spawns, _ = marked(box, rows, headroom)
    field = Field(box, rows)
    levels = light_of(field)
    return [box.position(number) for number, spawn in enumerate(spawns) if spawn and levels[field.place(number)] < need]


def apart(box, rows, torches, dark, need, is_reached):
    """The torches all of whose dark cells lie where nobody gets to."""
    field = Field(box, rows)
    hidden = [at for at in dark if not is_reached(box.worldly(at))]
    if not hidden:
        return []
    hidden = set(hidden)
    found = []
    for torch in torches:
        window = Window(field, torch[:3], REACH)
        spread = window.spread(window.bit(*torch[:3]))[need]
        lit = [at for at in dark if window.has(at) and spread >> window.bit(*at) & 1]
        if lit and hidden.issuperset(lit):
            found.append(torch)
    return found
