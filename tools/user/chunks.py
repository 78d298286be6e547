"""The blocks of a chunk, as the versions from 1.16 on save them (Minecraft Wiki, "Chunk format")."""
import struct

from nbt_reader import root_of, text_of
from nbt_writer import BYTE, COMPOUND, INT, LIST, LONGS, TEXT
from refusals import damaged

SIDE = 16  # of a chunk and of a section
CELLS = SIDE ** 3
LEAST_BITS = 4
EARLIEST = 2_529  # 20w17a, a snapshot before 1.16: from here on no entry crosses a long
FULL = ("full", "minecraft:full")
# What has no part in the blocks, as versions call it.
LEFT_OUT = frozenset(
    b"block_entities entities TileEntities Entities biomes Biomes BlockLight SkyLight Heightmaps structures Structures "
    b"block_ticks fluid_ticks TileTicks LiquidTicks ToBeTicked LiquidsToBeTicked PostProcessing Lights CarvingMasks "
    b"blending_data below_zero_retrogen starlight.blocklight_state starlight.skylight_state".split()
)


def held(entries, name, kind):
    """What the entry of that name holds, or None where there is none; one of another kind is a fault."""
    found = entries.get(name)
    if found is not None and found[0] != kind:
        raise damaged(f"its {name.decode()} has the wrong type")
    return found and found[1]


def needed(entries, name, kind):
    """What the entry of that name holds, which has to be there."""
    found = held(entries, name, kind)
    if found is None:
        raise damaged(f"it has no {name.decode()}")
    return found


def compounds(entries, name):
    """The compounds of a list; none where there is no such list."""
    kind, items = held(entries, name, LIST) or (COMPOUND, [])
    if items and kind != COMPOUND:
        raise damaged(f"its {name.decode()} has the wrong type")
    return items


def state_of(entries):
    """The block state of a palette's entry: its name and its properties. A property that is no text doesn't count."""
    kind, props = entries.get(b"Properties", (COMPOUND, {}))
    props = props.items() if kind == COMPOUND else ()
    name = needed(entries, b"Name", TEXT)
    return text_of(name), {text_of(key): text_of(value) for key, (kind, value) in props if kind == TEXT}


def indices_of(longs, count):
    """The index of each cell into a palette of `count` states. An entry has as many bits as the palette needs, at least
    four; the first stands in the lowest bits of the first long, and none crosses a long."""
    bits = max(LEAST_BITS, (count - 1).bit_length())
    each = 64 // bits
    due = -(-CELLS // each)
    if len(longs) != 8 * due:
        raise damaged(f"a section has {len(longs) // 8} longs for a palette of {count}, not {due}")
    mask, shifts = (1 << bits) - 1, range(0, bits * each, bits)
    found = [long >> shift & mask for long in struct.unpack(f">{due}Q", longs) for shift in shifts][:CELLS]
    if max(found) >= count:
        raise damaged(f"a section has state {max(found)} of a palette of {count}")
    return found


class Chunk:
    """A chunk's blocks by sections of 16 x 16 x 16, each told by its height over 16; none before it is whole.

    data_version  the version of the game's data that saved it
    status        how far the game is with it
    is_whole      whether the game has finished it"""

    def __init__(self, data, x, z):
        root = root_of(data, LEFT_OUT)
        self.data_version = held(root, b"DataVersion", INT) or 0
        if self.data_version < EARLIEST:
            raise damaged(f"data version {self.data_version} is older than 1.16's: have the game optimise the world")
        level = held(root, b"Level", COMPOUND) or root
        told = needed(level, b"xPos", INT), needed(level, b"zPos", INT)
        if told != (x, z):
            raise damaged(f"it says that it is chunk {told[0]} {told[1]}")
        self.status = text_of(needed(level, b"Status", TEXT))
        self.is_whole = self.status in FULL
        sections = (compounds(level, b"sections") or compounds(level, b"Sections")) if self.is_whole else []
        self.sections = {self.height_of(section): section for section in sections}

    @staticmethod
    def height_of(section):
        kind, height = section.get(b"Y", (None, None))
        if kind not in (BYTE, INT):
            raise damaged("a section has no Y")
        return height

    def section(self, height):
        """The palette of a section and the index of each cell into it, by y, then z, then x; None where the section has
        no blocks."""
        section = self.sections.get(height, {})
        states = held(section, b"block_states", COMPOUND)
        names = (b"Palette", b"BlockStates") if states is None else (b"palette", b"data")
        states = section if states is None else states
        longs = held(states, names[1], LONGS)
        palette = [state_of(entries) for entries in compounds(states, names[0])]
        if palette and longs is not None:
            return palette, indices_of(longs, len(palette))
        if len(palette) == 1:
            return palette, [0] * CELLS
        if palette or longs is not None or states is not section:
            raise damaged(f"a section has a palette of {len(palette)}, and {'no' if longs is None else 'some'} blocks")
        return None
