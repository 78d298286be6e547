"""Schematics of Litematica and WorldEdit, written apart from the readers that are tested."""
import paths
from saved_worlds import Longs, nbt

from nbt_writer import Writer


def places(size):
    """The cells of a box in their order."""
    return [(x, y, z) for y in range(size[1]) for z in range(size[2]) for x in range(size[0])]


def some_states(rng, count):
    """Different block states, some with properties."""
    props = lambda: {"half": "top", "axis": "x"} if rng.random() < 0.3 else {}
    return [(f"minecraft:block_{at}", props()) for at in range(count)]


def litematic_file(rng, regions):
    """A schematic as Litematica lays it out; a region's sides are told the other way round now and then."""
    told = {}
    for name, (low, size, palette, indices) in regions.items():
        position, sides = list(low), list(size)
        for axis in range(3):
            if rng.random() < 0.3:
                position[axis], sides[axis] = low[axis] + size[axis] - 1, -size[axis]
        bits = max(2, (len(palette) - 1).bit_length())
        whole = sum(index << bits * at for at, index in enumerate(indices))
        longs = [whole >> at & (1 << 64) - 1 for at in range(0, bits * len(indices), 64)]
        vector = lambda numbers: dict(zip("xyz", numbers))
        states = [{"Name": block, **({"Properties": props} if props else {})} for block, props in palette]
        told[name] = {
            "Position": vector(position), "Size": vector(sides), "BlockStates": Longs(longs),
            "BlockStatePalette": states,
        }
    return nbt({"MinecraftDataVersion": 3700, "Version": 6, "Regions": told})


def sponge_file(version, size, palette, indices):
    """A schematic as WorldEdit lays it out."""
    out = Writer()
    out.name(10, "" if version == 3 else "Schematic")
    if version == 3:
        out.name(10, "Schematic")
    out.integer("Version", version)
    out.integer("DataVersion", 3700)
    for side, count in zip(("Width", "Height", "Length"), size):
        out.name(2, side)
        out.put(count.to_bytes(2, "big"), "number")
    if version == 3:
        out.name(10, "Blocks")
    out.name(10, "Palette")
    for at, (name, props) in enumerate(palette):
        inner = ",".join(f"{key}={value}" for key, value in props.items())
        out.integer(f"{name}[{inner}]" if inner else name, at)
    out.end()
    data = b"".join(bytes([index]) if index < 128 else bytes([index & 127 | 128, index >> 7]) for index in indices)
    out.name(7, "Data" if version == 3 else "BlockData")
    out.count(len(data))
    out.put(data, "text")
    for _ in range(3 if version == 3 else 1):
        out.end()
    return out.file()
