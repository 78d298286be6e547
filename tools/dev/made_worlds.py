"""Saved worlds of stone with caves in it, written by sections: a large one takes seconds."""
import os
import sys

from repository import TOOLS

sys.path.append(os.path.join(TOOLS, "dev", "tests"))
from saved_worlds import V1_21, Byte, Longs, Saved, nbt, packed

SIDE = 16
STONE = "minecraft:stone"


def section_of(height, cells):
    """A section of stone but for some cells, told by their numbers in it."""
    names = [STONE, *sorted(set(cells.values()) - {STONE})]
    held = {"palette": [{"Name": name} for name in names]}
    if cells:
        indices, places = [0] * SIDE ** 3, {name: at for at, name in enumerate(names)}
        for number, name in cells.items():
            indices[number] = places[name]
        held["data"] = packed(indices, len(names))
    return {"Y": Byte(height), "block_states": held}


def write_world(folder, cells, chunks, heights):
    """Writes a world of stone but for some cells, told by their coordinates with the names of their blocks. It has these
    chunks, with sections at these heights over 16."""
    sections = {}
    for (x, y, z), name in cells.items():
        place = sections.setdefault((x // SIDE, y // SIDE, z // SIDE), {})
        place[(y % SIDE * SIDE + z % SIDE) * SIDE + x % SIDE] = name
    saved = Saved(folder, version=V1_21)
    for x, z in chunks:
        told = [section_of(y, sections.get((x, y, z), {})) for y in heights]
        inner = {"DataVersion": V1_21, "xPos": x, "zPos": z, "yPos": -4, "Status": "full", "sections": told}
        saved.put(x, z, nbt({**inner, "Heightmaps": {"MOTION_BLOCKING": Longs([1])}, "block_entities": []}))
    saved.write()
