"""Region files, in which a saved world keeps its chunks, 32 x 32 a file (Minecraft Wiki, "Region file format")."""
import os

from refusals import Refusal, damaged, unreadable
from unpacking import GZIP, ZLIB, read_limited, unpacked

SIDE = 32  # of a region, in chunks
SECTOR = 4_096
HEADER = 2 * SECTOR  # places, then times
OUTSIDE = 128  # added to the packing of a chunk that has a file of its own
LZ4 = 4
LZ4_TOLD = "it is packed by LZ4, which isn't read: set region-file-compression=deflate and have the game save it again"


class RegionFile:
    """The region file that has a chunk, told by the chunk's coordinates."""

    def __init__(self, folder, x, z):
        self.folder, self.name = folder, f"r.{x // SIDE}.{z // SIDE}.mca"

    def chunk(self, x, z):
        """The NBT of a chunk as bytes, or None where the file has none."""
        path = os.path.join(self.folder, self.name)
        try:
            with open(path, "rb") as file:
                size = file.seek(0, os.SEEK_END)
                if size == 0:
                    return None
                if size < HEADER:
                    raise Refusal(f"region file {self.name}: it ends at {size:,}, within its header of {HEADER:,}")
                return self.read(file, size, x, z)
        except FileNotFoundError:
            return None
        except OSError as fault:
            raise unreadable(path, fault) from None

    def read(self, file, size, x, z):
        """The chunk's NBT, by the place that the header tells: three bytes its first sector, one how many."""
        file.seek(4 * (x % SIDE + z % SIDE * SIDE))
        place = file.read(4)
        first, count = int.from_bytes(place[:3], "big"), place[3]
        if first == count == 0:
            return None
        start = first * SECTOR
        if first < HEADER // SECTOR:
            raise damaged(f"its sector {first} is one of the header")
        if start + 5 > size:
            raise damaged(f"its sector {first} lies behind the file's end")
        file.seek(start)
        length, packing = int.from_bytes(file.read(4), "big"), file.read(1)[0]
        if length == 0 or length + 4 > count * SECTOR:
            raise damaged(f"its length of {length:,} bytes doesn't fit its sectors, {count} of {SECTOR:,}")
        if start + 4 + length > size:
            raise damaged(f"it is cut off: the file ends at {size:,}, the chunk at {start + 4 + length:,}")
        if packing < OUTSIDE:
            return opened(file.read(length - 1), packing)
        return opened(self.outside(f"c.{x}.{z}.mcc"), packing - OUTSIDE)

    def outside(self, name):
        """The packed bytes of a chunk of over 255 sectors, which has a file of its own."""
        try:
            return read_limited(os.path.join(self.folder, name))
        except FileNotFoundError:
            raise damaged(f"its file {name} isn't there") from None


def opened(data, packing):
    """The bytes of a chunk's NBT."""
    if packing == LZ4:
        raise damaged(LZ4_TOLD)
    if packing == 3:
        return data
    if packing not in (1, 2):
        raise damaged(f"its compression {packing} is none of 1 to 4")
    return unpacked(data, GZIP if packing == 1 else ZLIB)
