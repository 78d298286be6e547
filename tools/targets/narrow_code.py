"""The body of a function over a 64-bit memory, as one over a 32-bit memory: see narrow.py.

Each instruction is read, since its length is known no other way, and written as it is. One that reaches memory or the
table gets `i32.wrap_i64` behind its address. Where a value stands above the address, it waits in a local of its own."""
from wasm_bytes import leb

WRAP, EXTEND_UNSIGNED, EXTEND_SIGNED, UNREACHABLE = b"\xa7", b"\xad", b"\xac", b"\x00"
GET, SET = b"\x20", b"\x21"
I32, I64, F32, F64, V128 = 0x7F, 0x7E, 0x7D, 0x7C, 0x7B

BLOCKS = {0x02, 0x03, 0x04}
ONE_NUMBER = {0x0C, 0x0D, 0x10, 0x12, 0x20, 0x21, 0x22, 0x23, 0x24, 0x41, 0x42, 0xD2}
BRANCH_TABLE, SELECT_TYPED, REF_NULL = 0x0E, 0x1C, 0xD0
CALLS_BY_TABLE = {0x11, 0x13}
LOADS = set(range(0x28, 0x36))
STORES = {0x36: I32, 0x37: I64, 0x38: F32, 0x39: F64, 0x3A: I32, 0x3B: I32, 0x3C: I64, 0x3D: I64, 0x3E: I64}
MEMORY_SIZE, MEMORY_GROW = 0x3F, 0x40
F32_CONST, F64_CONST = 0x43, 0x44
PLAIN = {0x00, 0x01, 0x05, 0x0B, 0x0F, 0x1A, 0x1B, *range(0x45, 0xC5)}
MORE, VECTORS = 0xFC, 0xFD
COPY, FILL, LAST_CONVERSION = 10, 11, 7
VECTOR_LOADS = {*range(0, 11), 92, 93}
VECTOR_STORE, VECTOR_CONST, VECTOR_SHUFFLE = 11, 12, 13
VECTOR_LANES_OF_MEMORY, VECTOR_LANES = set(range(84, 92)), set(range(21, 35))


class Unknown(Exception):
    """An instruction that isn't known here."""


class Body:
    """A function's body, from its locals on."""

    def __init__(self, reader, parameters):
        self.reader, self.out, self.added = reader, bytearray(), {}
        self.locals = [(reader.number(), reader.byte()) for _ in range(reader.number())]
        self.count = parameters + sum(count for count, _ in self.locals)

    def written(self):
        """The body with its locals, those added behind the others."""
        head = leb(len(self.locals) + len(self.added))
        for count, kind in [*self.locals, *((1, kind) for kind in self.added)]:
            head += leb(count) + bytes([kind])
        return head + bytes(self.out)

    def waiting(self, kind):
        """The local in which a value of that kind waits."""
        return leb(self.added.setdefault(kind, self.count + len(self.added)))

    def offset(self):
        """Alignment and offset of an access. None where the offset is beyond any memory, so that it always traps."""
        align, offset = self.reader.number(), self.reader.number()
        if align > 63:
            raise Unknown("an access to one of many memories")
        return None if offset >= 1 << 32 else leb(align) + leb(offset)

    def load(self, head):
        offset = self.offset()
        self.out += UNREACHABLE if offset is None else WRAP + head + offset

    def store(self, kind, head, lane=False):
        offset = self.offset()
        after = self.reader.take(1) if lane else b""
        if offset is None:
            self.out += UNREACHABLE
            return
        local = self.waiting(kind)
        self.out += SET + local + WRAP + GET + local + head + offset + after

    def move(self, text, is_copy):
        """memory.copy of two addresses and a count, or memory.fill of an address, a byte and a count."""
        count, middle = self.waiting(I64), self.waiting(I32)
        self.out += SET + count + (WRAP if is_copy else b"") + SET + middle + WRAP
        self.out += GET + middle + GET + count + WRAP + text

    def run(self):
        while self.reader.is_more():
            begin = self.reader.at
            code = self.reader.byte()
            if code in LOADS:
                self.load(bytes([code]))
            elif code in STORES:
                self.store(STORES[code], bytes([code]))
            elif code == MEMORY_SIZE:
                self.out += bytes([code]) + self.reader.take(1) + EXTEND_UNSIGNED
            elif code == MEMORY_GROW:
                self.out += WRAP + bytes([code]) + self.reader.take(1) + EXTEND_SIGNED
            elif code in CALLS_BY_TABLE:
                self.reader.skip_numbers(2)
                self.out += WRAP + self.reader.data[begin : self.reader.at]
            elif code == MORE:
                self.more(begin)
            elif code == VECTORS:
                self.vector(begin)
            else:
                self.skip(code, begin)
                self.out += self.reader.data[begin : self.reader.at]

    def skip(self, code, begin):
        """Reads over what belongs to an instruction that reaches no memory."""
        reader = self.reader
        if code in BLOCKS or code in ONE_NUMBER:
            reader.skip_number()
        elif code == BRANCH_TABLE:
            reader.skip_numbers(reader.number() + 1)
        elif code == SELECT_TYPED:
            reader.take(reader.number())
        elif code in (F32_CONST, F64_CONST):
            reader.take(4 if code == F32_CONST else 8)
        elif code == REF_NULL:
            reader.take(1)
        elif code not in PLAIN:
            raise Unknown(f"instruction {code:#x} at {begin}")

    def more(self, begin):
        """Conversions, and memory that is copied or filled."""
        code = self.reader.number()
        if code in (COPY, FILL):
            self.reader.take(2 if code == COPY else 1)
            self.move(self.reader.data[begin : self.reader.at], code == COPY)
        elif code <= LAST_CONVERSION:
            self.out += self.reader.data[begin : self.reader.at]
        else:
            raise Unknown(f"instruction 0xfc {code} at {begin}")

    def vector(self, begin):
        code = self.reader.number()
        head = self.reader.data[begin : self.reader.at]
        if code in VECTOR_LOADS:
            self.load(head)
        elif code == VECTOR_STORE or code in VECTOR_LANES_OF_MEMORY:
            self.store(V128, head, code != VECTOR_STORE)
        else:
            if code in (VECTOR_CONST, VECTOR_SHUFFLE):
                self.reader.take(16)
            elif code in VECTOR_LANES:
                self.reader.take(1)
            self.out += self.reader.data[begin : self.reader.at]
