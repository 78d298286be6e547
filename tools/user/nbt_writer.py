"""Writing NBT (Minecraft Wiki, "NBT format"), for the scripts here and in ../dev."""
import gzip
import io
import struct

LEVEL = 6  # of packing: level 9 takes three times as long for a box and gains nothing
END, BYTE, SHORT, INT, LONG, FLOAT, DOUBLE, BYTES, TEXT, LIST, COMPOUND, INTS, LONGS = range(13)


class Writer:
    """Writes NBT. Each piece is told with what it is (an id, a length, a count, a number or a text), for writers over
    this one that keep it."""

    def __init__(self):
        self.parts = []

    def put(self, data, mark):
        self.parts.append(data)

    def text(self, data):
        self.put(struct.pack(">H", len(data)), "length")
        if data:
            self.put(data, "text")

    def name(self, kind, name):
        self.put(bytes([kind]), "id")
        self.text(name.encode())

    def count(self, count):
        self.put(struct.pack(">i", count), "count")

    def number(self, number):
        self.put(struct.pack(">i", number), "number")

    def end(self):
        self.put(b"\0", "id")

    def ints(self, name, numbers):
        self.name(LIST, name)
        self.put(bytes([INT]), "id")
        self.count(len(numbers))
        for number in numbers:
            self.number(number)

    def compounds(self, name, count):
        """The head of a list of `count` compounds; an empty list has the id 0."""
        self.name(LIST, name)
        self.put(bytes([COMPOUND if count else END]), "id")
        self.count(count)

    def state(self, name, props, has_empty=False):
        """A block state, whose properties are left out where it has none, unless told."""
        self.name(TEXT, "Name")
        self.text(name.encode())
        if props or has_empty:
            self.name(COMPOUND, "Properties")
            for key, value in props.items():
                self.name(TEXT, key)
                self.text(value.encode())
            self.end()
        self.end()

    def block(self, at, state):
        """An entry of the blocks: a position, and the index of its state in the palette."""
        self.ints("pos", at)
        self.name(INT, "state")
        self.number(state)
        self.end()

    def integer(self, name, number):
        """An entry that is an Int."""
        self.name(INT, name)
        self.number(number)

    def long(self, name, number):
        """An entry that is a Long."""
        self.name(LONG, name)
        self.put(struct.pack(">q", number), "number")

    def longs(self, name, numbers):
        """An entry that is a Long_Array; the numbers are unsigned."""
        self.name(LONGS, name)
        self.count(len(numbers))
        self.put(struct.pack(f">{len(numbers)}Q", *numbers), "text")

    def string(self, name, text):
        """An entry that is a String."""
        self.name(TEXT, name)
        self.text(modified(text))

    def file(self):
        return b"".join(self.parts)


def modified(text):
    """A text in modified UTF-8: 0 is two bytes, and a character above FFFF two surrogates (Minecraft Wiki, "NBT
    format")."""
    wide = text.encode("utf-16-be", "surrogatepass")
    units = "".join(chr(unit) for (unit,) in struct.iter_unpack(">H", wide))
    return units.encode("utf-8", "surrogatepass").replace(b"\0", b"\xc0\x80")


def zipped(data):
    """The data packed by gzip, always to the same bytes."""
    whole = io.BytesIO()
    with gzip.GzipFile(filename="", mode="wb", compresslevel=LEVEL, fileobj=whole, mtime=0) as file:
        file.write(data)
    return whole.getvalue()
