"""Cells in which a mob could spawn and that no torch can light. A slab in the lower half of such a cell keeps mobs
away, so the rest is planned as if it were there: it counts as no room, and light doesn't pass it."""
import answers
import plans
from boxes import Box
from folders import put
from places import hangs_of
from rows import Row

SLAB = "torchplan:slab", {}
ROW = Row(SLAB[0].encode(), {}, 15, 0, False, False, False, False, False)


def needed(program, folder, box, rows, dark, need, told):
    """The dark cells that no torch can light, the one that the planner told among them: those that stay dark with a
    torch at every place. The folder has the cave, and gets a plan of these torches."""
    torches = [plans.Torch(*box.position(number), hang) for number, hang in hangs_of(box, rows).items()]
    put(folder, "plan.txt", plans.text_of_torches(plans.Plan(torches, len(dark), None, {})).encode())
    levels = answers.levels(program, folder, "plan.txt")
    return sorted({told, *(at for at in dark if levels[box.number(*at)] < need)}, key=lambda at: box.number(*at))


def with_slabs(box, cells):
    """The box with slabs in these cells."""
    palette = box.palette if SLAB in box.palette else [*box.palette, SLAB]
    found = Box(box.size, palette, box.cells[:], box.corner, box.dimension, box.data_version, box.name)
    for at in cells:
        found.cells[box.number(*at)] = palette.index(SLAB)
    return found


def cells_of(box):
    """The cells that have a slab."""
    kinds = {index for index, state in enumerate(box.palette) if state == SLAB}
    return [box.position(number) for number, cell in enumerate(box.cells) if cell in kinds]


def lines(box, cells):
    """What has to be known of these cells, in the words of the world."""
    for x, y, z in cells:
        state, under = box.state_at(x, y, z), box.state_at(x, y - 1, z)
        where = " ".join(map(str, box.worldly((x, y, z))))
        there = f"{state[0]} over {under[0]}" if state and under else "a cell"
        yield f"no torch can light {where} ({there}), where a mob could spawn: put a slab there, in the lower half"
