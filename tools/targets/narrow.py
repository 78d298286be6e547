"""A WebAssembly module over a 64-bit memory and table, as one over 32-bit ones, for browsers that have no others.

An address stays an i64 where it is computed and kept, and is wrapped where memory is reached. Of a program that reaches
only what it was given, that is the same one as long as its memory has less than 4 GiB. The stack stands lowest, so one
that overflows reaches below 0. Wrapped, that is just below 4 GiB. The memory may not grow into its last 16 MiB, and so
such an address is refused as before."""
from narrow_code import Body, Unknown
from wasm_bytes import Reader, leb, signed_leb

TYPES, IMPORTS, FUNCTIONS, TABLES, MEMORIES, ELEMENTS, CODE, DATA = 1, 2, 3, 4, 5, 9, 10, 11
FUNCTION_TYPE, I32_CONST, I64_CONST, END = 0x60, 0x41, 0x42, 0x0B
MOST_PAGES = 65_536 - 256  # of 64 KiB


def where(reader):
    """Where a segment begins: an i64.const as an i32.const."""
    flags, code, place, end = reader.number(), reader.byte(), reader.number(), reader.byte()
    if (flags, code, end) != (0, I64_CONST, END) or place >= 1 << 31:
        raise Unknown("a segment whose place isn't one small constant")
    return leb(flags) + bytes([I32_CONST]) + signed_leb(place) + bytes([END])


def limits(reader, most=None):
    """The least and the most of a memory or a table, whose flag 4 says that it has 64-bit addresses."""
    flags, least = reader.number(), reader.number()
    if flags & ~5:
        raise Unknown(f"limits with the flags {flags}")
    told = reader.number() if flags & 1 else None
    most = told if most is None else min(most, told or most)
    return leb(0 if most is None else 1) + leb(least) + (b"" if most is None else leb(most))


class Module:
    """A module that is read section by section."""

    def __init__(self, data):
        self.data, self.parameters, self.functions = data, [], []

    def types(self, reader):
        """How many parameters each type has."""
        for _ in range(reader.number()):
            if reader.byte() != FUNCTION_TYPE:
                raise Unknown("a type that is no function's")
            count = reader.number()
            reader.take(count)
            reader.take(reader.number())
            self.parameters.append(count)

    def imports(self, reader):
        for _ in range(reader.number()):
            reader.take(reader.number())
            reader.take(reader.number())
            if reader.byte() != 0:
                raise Unknown("an import that is no function")
            reader.number()

    def tables(self, reader):
        return leb(reader.number()) + bytes([reader.byte()]) + limits(reader)

    def memories(self, reader):
        return leb(reader.number()) + limits(reader, MOST_PAGES)

    def elements(self, reader):
        out = leb(count := reader.number())
        for _ in range(count):
            out += where(reader)
            begin = reader.at
            reader.skip_numbers(reader.number())
            out += reader.data[begin : reader.at]
        return out

    def segments(self, reader):
        out = bytearray(leb(count := reader.number()))
        for _ in range(count):
            out += where(reader)
            length = reader.number()
            out += leb(length) + reader.take(length)
        return bytes(out)

    def code(self, reader):
        out = bytearray(leb(reader.number()))
        for index in self.functions:
            size = reader.number()
            body = Body(Reader(reader.data, reader.at, reader.at + size), self.parameters[index])
            body.run()
            reader.at += size
            text = body.written()
            out += leb(len(text)) + text
        return bytes(out)

    def section(self, kind, reader):
        """What stands for a section; None where it stays as it is."""
        if kind == FUNCTIONS:
            self.functions = [reader.number() for _ in range(reader.number())]
        elif kind in (TYPES, IMPORTS):
            (self.types if kind == TYPES else self.imports)(reader)
        else:
            changed = {TABLES: self.tables, MEMORIES: self.memories, ELEMENTS: self.elements, CODE: self.code,
                       DATA: self.segments}
            return changed[kind](reader) if kind in changed else None
        return None


def narrowed(data):
    """The bytes of a module over 32-bit memory, without its custom sections: names of functions, and what made it."""
    module, reader = Module(data), Reader(data)
    out = bytearray(reader.take(8))
    while reader.is_more():
        kind, size = reader.byte(), reader.number()
        begin, reader.at = reader.at, reader.at + size
        if kind:
            changed = module.section(kind, Reader(data, begin, begin + size))
            text = data[begin : begin + size] if changed is None else changed
            out += bytes([kind]) + leb(len(text)) + text
    return bytes(out)
