"""What the cells of a box are, a byte for each: whether light passes, a mob could spawn there, or a torch stands."""
from fields import OPAQUE
from standing import is_torch

PASSES, FREE, STANDS, TORCH = 1, 2, 4, 8
TABLES = [bytes(kind // one & 1 for kind in range(256)) for one in (PASSES, FREE, STANDS, TORCH)]


def marked(box, rows, headroom):
    """Which cells of a box let light through, in which a mob could spawn, and which have a torch: a byte for each."""
    kinds = bytes(map(kind_of, box.palette, rows.rows_of(box.palette))) + b"\0"
    told = bytes([kinds[cell] for cell in box.cells])
    passes, free, stands, torches = (told.translate(table) for table in TABLES)
    layer = box.size[0] * box.size[2]
    number = lambda data: int.from_bytes(data, "little")
    head = number(free) >> 8 * layer if headroom == 2 else -1
    spawns = number(free) & head & number(stands) << 8 * layer
    return passes, (spawns & (1 << 8 * len(free)) - 1).to_bytes(len(free), "little"), torches


def kind_of(state, row):
    """What a state is, one or more of PASSES, FREE, STANDS and TORCH; none where no row fits it."""
    if row is None:
        return 0
    return PASSES * (row.opacity < OPAQUE) | FREE * row.free | STANDS * row.stand | TORCH * is_torch(state)
