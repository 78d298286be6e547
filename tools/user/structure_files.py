"""Structure files, as the game saves them, as boxes (Minecraft Wiki, "Structure file")."""
import extents
from boxes import Box
from chunks import compounds, held, needed, state_of
from nbt_reader import root_of
from nbt_writer import INT, LIST
from refusals import damaged

LEFT_OUT = frozenset([b"nbt", b"entities"])


def three(entries, name):
    """The three numbers of a list."""
    kind, numbers = needed(entries, name, LIST)
    if kind != INT or len(numbers) != 3:
        raise damaged(f"its {name.decode()} has the wrong type")
    return numbers


def read_structure(data, name):
    """The box of a structure file that isn't packed."""
    return structure_of(root_of(data, LEFT_OUT), name)


def structure_of(root, name):
    """The box of a structure by its root. What the program refuses is a fault here too, but in other words."""
    size = tuple(three(root, b"size"))
    if not 0 <= min(size) <= max(size) <= extents.SIDE or extents.count_of(size) > extents.CELLS:
        raise damaged("its size is beyond the limits")
    palette = [state_of(entries) for entries in compounds(root, b"palette")]
    cells = [Box.NO_ENTRY] * extents.count_of(size)
    box = Box(size, palette, cells, data_version=held(root, b"DataVersion", INT), name=name)
    for entry in compounds(root, b"blocks"):
        at, state = three(entry, b"pos"), needed(entry, b"state", INT)
        if not (all(0 <= place < side for place, side in zip(at, size)) and 0 <= state < len(palette)):
            raise damaged("a block lies outside of the box or has no state")
        cells[box.number(*at)] = state
    return box
