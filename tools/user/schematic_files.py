"""Schematics as boxes: those of Litematica, and those of Sponge's versions 2 and 3, which WorldEdit writes."""
import re
import struct

import extents
from boxes import Box
from chunks import compounds, held, needed, state_of
from nbt_reader import text_of
from nbt_writer import BYTES, COMPOUND, INT, LONGS, SHORT
from refusals import damaged

# Entries that have no part in the blocks.
LEFT_OUT = frozenset(
    b"Entities TileEntities PendingBlockTicks PendingFluidTicks BlockEntities BiomeData BiomePalette Biomes".split()
)
STATE = re.compile(r"([^\[\]]+)(?:\[([^\[\]]*)\])?")
LEAST_BITS = 2


def is_litematic(root):
    return b"Regions" in root and b"MinecraftDataVersion" in root


def sponge_of(root):
    """The entries of a schematic of Sponge, or None: version 3 has them one level below."""
    inner = held(root, b"Schematic", COMPOUND) if b"Schematic" in root else root
    return inner if b"Blocks" in inner and inner is not root or b"BlockData" in inner else None


def is_numbered(root):
    """Whether it is a schematic of old, whose blocks are numbers."""
    return b"Materials" in root and b"Blocks" in root


def empty_box(size, palette, data_version, name):
    if max(size) > extents.SIDE or extents.count_of(size) > extents.CELLS:
        told = f"it has {' x '.join(map(str, size))} cells"
        raise damaged(f"{told}, more than {extents.SIDE} a side or {extents.CELLS:,} in all: save parts of it")
    return Box(size, palette, [Box.NO_ENTRY] * extents.count_of(size), data_version=data_version, name=name)


def vector(entries, name):
    found = needed(entries, name, COMPOUND)
    return [needed(found, axis, INT) for axis in (b"x", b"y", b"z")]


def unpacked_indices(data, bits, count):
    """`count` numbers of `bits` bits each in longs, the first in the lowest bits; one may lie across two longs."""
    if len(data) * 8 < bits * count:
        raise damaged("a region has fewer block states than cells")
    longs = struct.unpack(f">{len(data) // 8}Q", data)
    mask, found = (1 << bits) - 1, []
    for start in range(0, bits * count, bits):
        at, shift = divmod(start, 64)
        value = longs[at] >> shift
        if shift + bits > 64:
            value |= longs[at + 1] << 64 - shift
        found.append(value & mask)
    return found


class Region:
    """A region of a schematic of Litematica: its lowest corner, its sides, its states, and the state of each cell."""

    def __init__(self, entries):
        at, size = vector(entries, b"Position"), vector(entries, b"Size")
        if 0 in size:
            raise damaged("a region has no cells")
        # a side that is negative leads from the position downwards
        self.low = [place + min(0, side + 1) for place, side in zip(at, size)]
        self.size = [abs(side) for side in size]
        self.palette = [state_of(state) for state in compounds(entries, b"BlockStatePalette")]
        self.data = needed(entries, b"BlockStates", LONGS)

    def cells(self):
        bits = max(LEAST_BITS, (len(self.palette) - 1).bit_length())
        found = unpacked_indices(self.data, bits, extents.count_of(self.size))
        if max(found) >= len(self.palette):
            raise damaged(f"a region has state {max(found)} of a palette of {len(self.palette)}")
        return found


def read_litematic(root, name):
    """The box about all regions. Where two lie over each other the later counts; nothing is known between them."""
    regions = [Region(entries) for kind, entries in needed(root, b"Regions", COMPOUND).values() if kind == COMPOUND]
    if not regions:
        raise damaged("it has no region")
    low = [min(region.low[axis] for region in regions) for axis in range(3)]
    high = [max(region.low[axis] + region.size[axis] for region in regions) for axis in range(3)]
    size = tuple(last - first for first, last in zip(low, high))
    box = empty_box(size, [], held(root, b"MinecraftDataVersion", INT), name)
    for region in regions:
        first = len(box.palette)
        box.palette += region.palette
        cells = iter(region.cells())
        for y in range(region.size[1]):
            for z in range(region.size[2]):
                at = box.number(*(place - least + more for place, least, more in zip(region.low, low, (0, y, z))))
                box.cells[at : at + region.size[0]] = [first + next(cells) for _ in range(region.size[0])]
    return box


def varints(data, count):
    """`count` numbers of seven bits a byte, the lowest first."""
    found, number, shift = [], 0, 0
    for byte in data:
        number |= (byte & 127) << shift
        shift += 7
        if byte < 128:
            found.append(number)
            number = shift = 0
    if len(found) != count or shift:
        raise damaged(f"it has {len(found):,} block states for {count:,} cells")
    return found


def state_of_text(text):
    """A block state of its text, as `minecraft:chest[facing=north]`."""
    found = STATE.fullmatch(text)
    pairs = [pair.split("=", 1) for pair in (found and found[2] or "").split(",") if pair]
    if found is None or any(len(pair) != 2 for pair in pairs):
        raise damaged(f"its palette has {text!r}, which is no block state")
    return found[1], dict(pairs)


def read_sponge(schematic, name):
    """The box of a schematic of Sponge."""
    version = held(schematic, b"Version", INT)
    if version not in (2, 3):
        raise damaged(f"it is a schematic of Sponge's version {version}; versions 2 and 3 are read")
    size = tuple(needed(schematic, side, SHORT) & 0xFFFF for side in (b"Width", b"Height", b"Length"))
    blocks = needed(schematic, b"Blocks", COMPOUND) if version == 3 else schematic
    told = needed(blocks, b"Palette", COMPOUND)
    names = {index: text_of(text) for text, (kind, index) in told.items() if kind == INT}
    places = {index: at for at, index in enumerate(sorted(names))}
    palette = [state_of_text(names[index]) for index in sorted(names)]
    box = empty_box(size, palette, held(schematic, b"DataVersion", INT), name)
    found = varints(needed(blocks, b"Data" if version == 3 else b"BlockData", BYTES), len(box.cells))
    if not set(found) <= set(places):
        raise damaged("a cell has a state that its palette hasn't")
    box.cells = [places[index] for index in found]
    return box
