"""Blocks that no table has: their names, and a table that has them, for its owner to look over."""
import re

from rows import Row
from tables import with_rows

KNOWN_NAME = re.compile(r"[a-z0-9_.-]+:[a-z0-9_./-]+")
HEAD = """\
# Blocks that no table has. Each row takes its block as full and solid:
#   opacity = 15   light doesn't enter the block; 0 for what light passes, as glass
#   stand = true   mobs stand on it; leave the line out where they don't
#   top = true     a torch may stand on it
#   side = true    a torch may hang on its sides
# Look each row over, and mend what differs: README.md, "A block that no table has".
"""


def unknown_names(box, rows):
    """The names of the blocks of a box that no row fits, each once, in the order of the palette."""
    used = set(box.cells)
    unfit = [name for index, ((name, _), row) in enumerate(zip(box.palette, rows.rows_of(box.palette)))
             if index in used and row is None]
    return list(dict.fromkeys(unfit))


def table_for(names, own):
    """The text of a table that has these names, and what one's own table has already."""
    full = lambda name: Row(name.encode(), {}, 15, 0, False, True, False, True, True)
    return HEAD.encode() + b"\n" + with_rows(own or b"", [full(name) for name in names if KNOWN_NAME.fullmatch(name)])
