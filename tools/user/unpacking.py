"""Unpacking what the game packs, up to a limit: a file of a megabyte can hold a gigabyte of zeros."""
import zlib

from refusals import damaged

# The window bits of zlib that take each packing (Python's documentation of zlib.decompress).
GZIP, ZLIB = 31, 15
MAGIC = b"\x1f\x8b"  # a gzip file begins so
MOST = 67_108_864


def unpacked(data, packing):
    """The bytes that were packed, at most 67,108,864 of them. A gzip file may have members one behind the other."""
    found = b""
    while True:
        stream = zlib.decompressobj(packing)
        try:
            found += stream.decompress(data, MOST + 1 - len(found))
        except zlib.error:
            raise damaged("its packed data is damaged") from None
        if len(found) > MOST:
            raise damaged(f"it unpacks to more than {MOST:,} bytes")
        if not stream.eof:
            raise damaged("its packed data is cut off")
        data = stream.unused_data
        if packing != GZIP or data[:2] != MAGIC:
            return found


def read_limited(path):
    """The bytes of a file, at most 67,108,864 of them."""
    with open(path, "rb") as file:
        data = file.read(MOST + 1)
    if len(data) > MOST:
        raise damaged(f"it has more than {MOST:,} bytes")
    return data


def plain(data):
    """The bytes of a file of the game, which is packed by gzip or not at all."""
    return unpacked(data, GZIP) if data[:2] == MAGIC else data
