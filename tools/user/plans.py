"""Reading what the program prints: plans, lists of dark cells, levels, and the rows of block states."""
import math
import re
from collections import namedtuple

from refusals import damaged
from rows import COLUMNS, Row

# Torches in the order of the plan: the coordinates of each, and how it hangs (floor, or the way that it faces).
Torch = namedtuple("Torch", "x y z hang")

# A plan: its torches, how many cells were dark, how many torches are needed at least where the search was stopped (None
# where it was not: then no fewer do), and the rows of each layer that the plan draws, by its height.
Plan = namedtuple("Plan", "torches dark at_least layers")

HANGS = ("floor", "north", "east", "south", "west")


def read_plan(text):
    """The plan that a text says."""
    lines = text.splitlines()
    words = [line.split() for line in lines[:2]]
    if not words or words[0][:1] != ["torches"]:
        raise damaged("its first line begins with 'torches'")
    at_least = int(words[0][3]) if words[0][2:3] == ["at-least"] else None
    dark = int(words[1][1]) if len(words) > 1 and words[1][:1] == ["dark"] else 0
    torches, layers, height = [], {}, None
    for line in lines[2:]:
        if line.startswith("layer "):
            height = int(line.split()[1])
            layers[height] = []
        elif height is not None:
            layers[height].append(line)
        elif line.startswith("T "):
            _, x, y, z, hang = line.split()
            if hang not in HANGS:
                raise damaged(f"a torch hangs {hang!r}")
            torches.append(Torch(int(x), int(y), int(z), hang))
    return Plan(torches, dark, at_least, layers)


ROW = re.compile(r"(?:-|(\d+) (\d+)((?: [a-z]+)*))\t")
DIGITS = bytes.maketrans(b"0123456789abcdef", bytes(range(16)))

SIGNS = {"floor": "T", "north": "^", "east": ">", "south": "v", "west": "<"}


def text_of_torches(plan):
    """The text of a plan without its layers."""
    least = "" if plan.at_least is None else f" at-least {plan.at_least}"
    lines = [f"torches {len(plan.torches)}{least}", f"dark {plan.dark}"]
    lines += [f"T {torch.x} {torch.y} {torch.z} {torch.hang}" for torch in plan.torches]
    return "".join(line + "\n" for line in lines)


def text_of(plan, box, signs):
    """The text of a plan in a box, as the program prints it. `signs` are those of the box's states."""
    number = lambda torch: box.number(*torch[:3])
    torches = sorted(plan.torches, key=number)
    at, lines = {number(torch): SIGNS[torch.hang] for torch in torches}, []
    wide, _, long = box.size
    for y in sorted({torch.y for torch in torches}):
        lines.append(f"layer {y}")
        for start in range(box.number(0, y, 0), box.number(0, y, 0) + wide * long, wide):
            cells = enumerate(box.cells[start : start + wide], start)
            lines.append("".join(at.get(place) or (signs[cell] if cell >= 0 else "#") for place, cell in cells))
    return text_of_torches(plan._replace(torches=torches)) + "".join(line + "\n" for line in lines)


def with_corner(text, corner, dimension):
    """The text of a plan with a line more, behind that of the dark cells: the world's coordinates of the corner."""
    first, second, *rest = text.splitlines(keepends=True)
    return "".join([first, second, "corner {} {} {} in {}\n".format(*corner, dimension), *rest])


def read_dark(text):
    """The dark cells that a text names."""
    first, *rest = [line.split() for line in text.splitlines()] or [[]]
    if first[:1] != ["dark"]:
        raise damaged("dark cells: their first line begins with 'dark'")
    return [tuple(map(int, words)) for words in rest]


def read_levels(text):
    """The level of each cell that a text tells, in the order of the cells' numbers."""
    first, _, rest = text.partition("\n")
    words, levels = first.split(), rest.encode().translate(DIGITS, b"\n")
    is_whole = words[:1] == ["levels"] and len(levels) == math.prod(map(int, words[1:]))
    if not is_whole or max(levels, default=0) > 15:
        raise damaged("levels: a line of their sides comes first, then a digit for each cell")
    return levels


def read_rows(text, states):
    """The rows that a text tells of block states, in their order: None of a state that none serves."""
    told = list(map(ROW.match, text.splitlines()))
    if len(told) != len(states) or not all(told):
        raise damaged("rows: a line for each block state tells a row or -, and behind a tab its name")
    return [found[1] and row_in(found, name) for found, (name, _) in zip(told, states)]


def row_in(found, name):
    """The row that a line tells of a block of that name, by what was found in it."""
    columns = found[3].split()
    return Row(name.encode(), {}, int(found[1]), int(found[2]), *(column in columns for column in COLUMNS))
