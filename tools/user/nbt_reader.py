"""Reading NBT (Minecraft Wiki, "NBT format"): one strict reader for all scripts, which uses no recursion.

A value is a pair of its kind and what it holds: a number; a text's or an array's bytes; a compound's dictionary, values
by names; a list's pair of its items' kind and the items, which are held without their kind. What is wrong is told in
the words of the program's fault lines."""
import struct

from nbt_writer import BYTE, BYTES, COMPOUND, DOUBLE, END, FLOAT, INT, INTS, LIST, LONG, LONGS, SHORT, TEXT
from refusals import damaged

DEEPEST = 512
MOST = 2_000_000  # the most lists and compounds that are kept: no cave has more, and each takes memory
FORMS = {BYTE: ">b", SHORT: ">h", INT: ">i", LONG: ">q", FLOAT: ">f", DOUBLE: ">d"}
WIDTHS = {kind: struct.calcsize(form) for kind, form in FORMS.items()}
ITEMS = {BYTES: 1, INTS: 4, LONGS: 8}
NUMBERS = {kind: struct.Struct(form).unpack_from for kind, form in FORMS.items()}
LENGTH = struct.Struct(">H").unpack_from
COUNT = NUMBERS[INT]


class Open:
    """A list or compound that is being read: its items or entries so far, the items' kind and how many are to come."""

    __slots__ = ("holds", "kind", "left", "is_kept")

    def __init__(self, holds, kind=None, left=0, is_kept=True):
        self.holds, self.kind, self.left, self.is_kept = holds, kind, left, is_kept


class Reader:
    """Reads from the front; the first piece that isn't whole or fits no case is the fault. Entries of the names in
    `left_out` are read over and not kept."""

    def __init__(self, data, left_out=frozenset()):
        self.data, self.size, self.at, self.left_out, self.kept = data, len(data), 0, left_out, 0

    def take(self, count):
        """Where the next `count` bytes begin, all of which are there."""
        at = self.at
        if self.size - at < count:
            raise damaged(f"nbt: truncated at {self.size}")
        self.at = at + count
        return at

    def text(self):
        count = LENGTH(self.data, self.take(2))[0]
        at = self.take(count)
        return self.data[at : at + count]

    def kind(self):
        at = self.take(1)
        kind = self.data[at]
        if kind > LONGS:
            raise damaged(f"nbt: bad tag {kind} at {at}")
        return kind

    def array(self, width):
        at = self.take(4)
        count = COUNT(self.data, at)[0]
        if count < 0:
            raise damaged(f"nbt: bad length at {at}")
        at = self.take(count * width)
        return self.data[at : at + count * width]

    def simple(self, kind):
        """A number, a text or an array."""
        if kind in WIDTHS:
            return NUMBERS[kind](self.data, self.take(WIDTHS[kind]))[0]
        return self.text() if kind == TEXT else self.array(ITEMS[kind])

    def numbers(self, kind, count):
        """The numbers of a list, all at once."""
        at = self.take(count * WIDTHS[kind])
        return list(struct.unpack_from(f">{count}{FORMS[kind][1]}", self.data, at))

    def opened(self, kind, depth, is_kept):
        """The list or compound that begins here."""
        if depth > DEEPEST:
            raise damaged(f"nbt: too deep at {self.at}")
        self.kept += is_kept
        if self.kept > MOST:
            raise damaged(f"nbt: more than {MOST:,} lists and compounds")
        if kind == COMPOUND:
            return Open({}, is_kept=is_kept)
        kind = self.kind()
        at = self.take(4)
        count = COUNT(self.data, at)[0]
        if kind == END and count > 0:
            raise damaged(f"nbt: bad length at {at}")
        if count <= 0:
            return Open([], kind)
        if kind in WIDTHS:
            return Open(self.numbers(kind, count), kind)
        return Open([], kind, count, is_kept)

    def items(self, one, depth):
        """Reads items of a list; the list or compound that begins among them, or None at its end."""
        kind, holds = one.kind, one.holds
        if kind not in (LIST, COMPOUND):
            for _ in range(one.left):
                item = self.simple(kind)
                if one.is_kept:
                    holds.append(item)
            return None
        if one.left == 0:
            return None
        one.left -= 1
        inner = self.opened(kind, depth, one.is_kept)
        if one.is_kept:
            holds.append(inner.holds if kind == COMPOUND else (inner.kind, inner.holds))
        return inner

    def entries(self, one, depth):
        """Reads entries of a compound; the list or compound that begins among them, or None at its end."""
        holds = one.holds
        while True:
            kind = self.kind()
            if kind == END:
                return None
            name = self.text()
            is_kept = one.is_kept and name not in self.left_out
            if kind not in (LIST, COMPOUND):
                value = self.simple(kind)
                if is_kept:
                    holds[name] = kind, value
                continue
            inner = self.opened(kind, depth, is_kept)
            if is_kept:
                holds[name] = kind, inner.holds if kind == COMPOUND else (inner.kind, inner.holds)
            if kind == COMPOUND or inner.left > 0:
                return inner

    def compound(self):
        """The entries of the outermost compound, whose name is read."""
        root = self.opened(COMPOUND, 1, True)
        path = [root]
        while path:
            one = path[-1]
            depth = len(path) + 1
            inner = self.entries(one, depth) if one.kind is None else self.items(one, depth)
            if inner is None:
                path.pop()
            else:
                path.append(inner)
        return root.holds


def root_of(data, left_out=frozenset()):
    """The entries of the root; what stands behind it isn't looked at."""
    if data[:2] == b"\x1f\x8b":
        raise damaged("nbt: compressed")
    reader = Reader(data, left_out)
    if data[reader.take(1)] != COMPOUND:
        raise damaged("nbt: root is no compound")
    reader.text()
    return reader.compound()


def text_of(data):
    """A text of its bytes, which are modified UTF-8: NUL has two bytes, and a character above U+FFFF is a pair of
    surrogates ("NBT format"). What is none stands as U+FFFD."""
    try:
        text = data.replace(b"\xc0\x80", b"\0").decode("utf-8", "surrogatepass")
        return text.encode("utf-16", "surrogatepass").decode("utf-16", "replace")
    except UnicodeDecodeError:
        return data.decode("utf-8", "replace")
