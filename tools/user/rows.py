"""The rows of block tables (docs/FORMATS.md, "Table of blocks"). Names, properties and values are bytes, as they are
compared."""
from collections import namedtuple

COLUMNS = ["free", "stand", "put", "top", "side"]

# The block's name, the values that properties must have, opacity and emission (0 to 15), and five columns, true or not.
Row = namedtuple("Row", ["name", "when", "opacity", "emission", *COLUMNS])

# A torch, which leaves room for a mob.
TORCH = Row(b"minecraft:torch", {}, 0, 14, True, False, False, False, False)
