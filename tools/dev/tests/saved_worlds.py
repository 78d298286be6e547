"""Writes saved worlds, apart from the readers that are tested: NBT, chunks and region files (Minecraft Wiki, "NBT
format", "Chunk format", "Region file format")."""
import gzip
import os
import struct
import zlib

V1_16, V1_17, V1_18, V1_20, V1_21 = 2_566, 2_724, 2_860, 3_463, 3_953


class Byte(int):
    """A number that is a Byte."""


class Short(int):
    """A number that is a Short."""


class Longs(list):
    """Numbers that are an array of Longs."""


def string(text):
    data = text.encode()
    return len(data).to_bytes(2, "big") + data


def payload(value):
    """The id of a value's kind and its bytes."""
    if isinstance(value, Byte):
        return 1, struct.pack(">b", value)
    if isinstance(value, Short):
        return 2, struct.pack(">H", value)
    if isinstance(value, float):
        return 6, struct.pack(">d", value)
    if isinstance(value, bytes):
        return 7, struct.pack(">i", len(value)) + value
    if isinstance(value, int):
        return 3, struct.pack(">i", value)
    if isinstance(value, str):
        return 8, string(value)
    if isinstance(value, Longs):
        return 12, struct.pack(">i", len(value)) + b"".join(long.to_bytes(8, "big") for long in value)
    if isinstance(value, list):
        kinds = [payload(item) for item in value] or [(0, b"")]
        return 9, bytes([kinds[0][0]]) + struct.pack(">i", len(value)) + b"".join(data for _, data in kinds)
    inner = [(string(name), *payload(item)) for name, item in value.items()]
    return 10, b"".join(bytes([kind]) + name + data for name, kind, data in inner) + b"\0"


def nbt(value):
    """A compound as a file has it."""
    return b"\x0a\0\0" + payload(value)[1]


def packed(indices, count):
    """The longs of a section whose palette has `count` states: as many bits an entry as tell them all, at least four,
    and as many whole entries a long as it holds, the first in its lowest bits."""
    bits = 4
    while 2**bits < count:
        bits += 1
    each = 64 // bits
    runs = [indices[at : at + each] for at in range(0, len(indices), each)]
    return Longs(sum(index << bits * place for place, index in enumerate(run)) for run in runs)


def palette_of(states):
    found = list(dict.fromkeys((name, tuple(props.items())) for name, props in states))
    indices = [found.index((name, tuple(props.items()))) for name, props in states] if len(found) < 300 else None
    if indices is None:
        places = {state: index for index, state in enumerate(found)}
        indices = [places[name, tuple(props.items())] for name, props in states]
    entries = [{"Name": name, **({"Properties": dict(props)} if props else {})} for name, props in found]
    return entries, indices


def section(height, states, is_old):
    """A section of 4,096 states, by y, then z, then x."""
    palette, indices = palette_of(states)
    longs = packed(indices, len(palette))
    if is_old:
        return {"Y": Byte(height), "Palette": palette, "BlockStates": longs}
    held = {"palette": palette} if len(palette) == 1 else {"palette": palette, "data": longs}
    return {"Y": Byte(height), "block_states": held, "SkyLight": "left out"}


def chunk(x, z, block, heights, version=V1_18, status="full", at=None):
    """The NBT of a chunk with sections at these heights. `block` tells the state by the world's coordinates."""
    sections = []
    for height in heights:
        cells = [(16 * x + i, 16 * height + j, 16 * z + k) for j in range(16) for k in range(16) for i in range(16)]
        sections.append(section(height, [block(*cell) for cell in cells], version < V1_18))
    x, z = at or (x, z)
    inner = {"xPos": x, "zPos": z, "Status": status, "Heightmaps": {"MOTION_BLOCKING": Longs([1, 2])}}
    if version < V1_18:
        return nbt({"DataVersion": version, "Level": {**inner, "Sections": sections, "TileEntities": []}})
    return nbt({"DataVersion": version, **inner, "yPos": -4, "sections": sections, "block_entities": []})


PACKERS = {1: gzip.compress, 2: zlib.compress, 3: bytes, 4: bytes}


class Saved:
    """A saved world in a folder, of chunks that are put in by their coordinates."""

    def __init__(self, folder, region="region", version=V1_18, player=None):
        self.folder, self.region, self.chunks = folder, os.path.join(folder, *region.split("/")), {}
        os.makedirs(self.region, exist_ok=True)
        if version is not None:
            with gzip.open(os.path.join(folder, "level.dat"), "wb") as file:
                told = {"DataVersion": version, "LevelName": "a world", **({"Player": player} if player else {})}
                file.write(nbt({"Data": told}))

    def put(self, x, z, data, packing=2, is_outside=False):
        """Puts in a chunk of this NBT, which has a file of its own where it is outside."""
        self.chunks[x, z] = data, packing, is_outside

    def fill(self, block, heights, places, version=V1_18, **how):
        for x, z in places:
            self.put(x, z, chunk(x, z, block, heights, version), **how)
        self.write()

    def path(self, x, z):
        return os.path.join(self.region, f"r.{x >> 5}.{z >> 5}.mca")

    def write(self, is_padded=True):
        """Writes the region files."""
        regions = {}
        for (x, z), chunk in self.chunks.items():
            regions.setdefault((x >> 5, z >> 5), {})[x, z] = chunk
        for chunks in regions.values():
            places, body = bytearray(4_096), b""
            for (x, z), (data, packing, is_outside) in chunks.items():
                data = PACKERS[packing](data)
                if is_outside:
                    with open(os.path.join(self.region, f"c.{x}.{z}.mcc"), "wb") as file:
                        file.write(data)
                    packing, data = packing + 128, b""
                whole = struct.pack(">iB", len(data) + 1, packing) + data
                first, count = 2 + -(-len(body) // 4_096), -(-len(whole) // 4_096)
                slot = 4 * ((x & 31) + 32 * (z & 31))
                places[slot : slot + 4] = first.to_bytes(3, "big") + bytes([count])
                body = body.ljust(-(-len(body) // 4_096) * 4_096, b"\0") + whole
            body = body.ljust(-(-len(body) // 4_096) * 4_096, b"\0") if is_padded else body
            with open(self.path(*next(iter(chunks))), "wb") as file:
                file.write(bytes(places) + b"\1" * 4_096 + body)
