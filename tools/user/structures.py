"""Writing structure files (Minecraft Wiki, "Structure file"), for the scripts here and in ../dev."""
import struct

from nbt_writer import COMPOUND, Writer


def structure_file(size, palette, entries):
    """The file of a structure: its sides, its block states (a name and properties), and entries of a position and a
    state's index."""
    out = Writer()
    out.name(COMPOUND, "")
    out.ints("size", size)
    out.compounds("palette", len(palette))
    for name, props in palette:
        out.state(name, props)
    out.compounds("blocks", len(entries))
    for at, state in entries:
        out.block(at, state)
    out.end()
    return out.file()


# An entry of the blocks, as Writer.block writes it: 'pos', three numbers, 'state', a number and the end.
ENTRY = struct.Struct(">11s3i8six")
POS, STATE = b"\x09\0\x03pos\x03\0\0\0\x03", b"\x03\0\x05state"


def box_file(box):
    """The file of a box's blocks, in the order of its cells; those without an entry are left out."""
    size_x, size_y, size_z = box.size
    places = ((x, y, z) for y in range(size_y) for z in range(size_z) for x in range(size_x))
    entries = [ENTRY.pack(POS, *at, STATE, state) for at, state in zip(places, box.cells) if state != box.NO_ENTRY]
    out = Writer()
    out.name(COMPOUND, "")
    out.ints("size", box.size)
    out.compounds("palette", len(box.palette))
    for name, props in box.palette:
        out.state(name, props)
    out.compounds("blocks", len(entries))
    out.put(b"".join(entries), "text")
    if box.data_version:
        out.integer("DataVersion", box.data_version)
    out.end()
    return out.file()
