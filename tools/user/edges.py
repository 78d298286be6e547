"""Free cells at the edge of a structure: the file doesn't say what stands beyond them."""
import re

SIDE = re.compile(r"(\d+) (west|east|north|south|below|above)")
WORDS = {"below": "at the bottom", "above": "at the top"}


def has_ground(box, rows):
    """Whether a mob can stand on any block of the box."""
    used = set(box.cells)
    return any(row.stand for index, row in enumerate(rows.rows_of(box.palette)) if row and index in used)


def lines(told, box, rows, dark):
    """What has to be known of the edge, by what the planner told of it: one line. Nothing of open sky, in which there
    is no ground and no cell is dark."""
    if told is None or not (dark or has_ground(box, rows)):
        return []
    sides = [f"{count} {WORDS.get(side, f'in the {side}')}" for count, side in SIDE.findall(told.split(";")[0])]
    return [f"free cells at the box's edge: {', '.join(sides)}. What lies beyond counts as nothing: no ground, no"
            " light, no room. Save one block more of floor, walls and ceiling, or plan a box of the world by --world"]
