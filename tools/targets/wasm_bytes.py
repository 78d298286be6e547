"""Reading and writing the numbers of a WebAssembly module (WebAssembly Core Specification, "Binary Format")."""


def leb(number):
    """A number that isn't negative, seven bits a byte."""
    out = bytearray()
    while number > 127:
        out.append(number & 127 | 128)
        number >>= 7
    out.append(number)
    return bytes(out)


def signed_leb(number):
    """The same number as a signed one: bit 6 of its last byte is its sign, so it mustn't be set."""
    out = bytearray(leb(number))
    if out[-1] & 64:
        out[-1] |= 128
        out.append(0)
    return bytes(out)


class Reader:
    """Reads bytes from a place on."""

    def __init__(self, data, at=0, end=None):
        self.data, self.at, self.end = data, at, len(data) if end is None else end

    def is_more(self):
        return self.at < self.end

    def byte(self):
        self.at += 1
        return self.data[self.at - 1]

    def take(self, count):
        self.at += count
        return self.data[self.at - count : self.at]

    def number(self):
        found = shift = 0
        while True:
            byte = self.byte()
            found |= (byte & 127) << shift
            shift += 7
            if byte < 128:
                return found

    def skip_number(self):
        while self.byte() > 127:
            pass

    def skip_numbers(self, count):
        for _ in range(count):
            self.skip_number()
