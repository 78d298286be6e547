"""A small reader of NBT for the tests, written apart from tools/user (Minecraft Wiki, "NBT format"): a compound is a
dictionary, a list a list, an array a tuple, a text a str."""
import gzip
import struct

NUMBERS = {1: ">b", 2: ">h", 3: ">i", 4: ">q", 5: ">f", 6: ">d"}
ARRAYS = {7: "b", 11: "i", 12: "q"}


def text_of(data):
    """A text of modified UTF-8: surrogates have three bytes each, and NUL two."""
    units = data.replace(b"\xc0\x80", b"\0").decode("utf-8", "surrogatepass")
    return units.encode("utf-16", "surrogatepass").decode("utf-16")


class Nbt:
    def __init__(self, data):
        self.data = data

    def number(self, form):
        size = struct.calcsize(form)
        piece, self.data = self.data[:size], self.data[size:]
        return struct.unpack(form, piece)[0]

    def text(self):
        size = self.number(">H")
        piece, self.data = self.data[:size], self.data[size:]
        return text_of(piece)

    def value(self, kind):
        if kind in NUMBERS:
            return self.number(NUMBERS[kind])
        if kind in ARRAYS:
            return tuple(self.number(">" + ARRAYS[kind]) for _ in range(self.number(">i")))
        if kind == 8:
            return self.text()
        if kind == 9:
            inner, count = self.number(">b"), self.number(">i")
            return [self.value(inner) for _ in range(count)]
        assert kind == 10, f"a tag of kind {kind}"
        found = {}
        while True:
            inner = self.number(">b")
            if inner == 0:
                return found
            name = self.text()
            assert name not in found, f"{name} stands twice"
            found[name] = self.value(inner)


def read_packed(data):
    """The root of a file packed by gzip, which has nothing behind its root."""
    reader = Nbt(gzip.decompress(data))
    assert reader.number(">b") == 10
    reader.text()
    root = reader.value(10)
    assert reader.data == b""
    return root
