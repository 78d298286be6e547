"""Small caves made at random and written as structure files in many ways, for the scripts beside this file."""
import repository  # it makes the modules of ../user known
from nbt_writer import BYTE, BYTES, COMPOUND, DOUBLE, END, FLOAT, INT, INTS, LIST, LONG, LONGS, SHORT, TEXT, Writer

# A name, its properties, and how often it is drawn.
GROUND = [("minecraft:stone", {}), ("minecraft:deepslate", {}), ("minecraft:dirt", {}), ("minecraft:oak_planks", {})]
ROOM = [("minecraft:air", {}), ("minecraft:cave_air", {}), ("minecraft:void_air", {})]
RARE = [
    ("minecraft:torch", {}),
    ("minecraft:wall_torch", {"facing": "north"}),
    ("minecraft:soul_torch", {}),
    ("minecraft:lantern", {"hanging": "true"}),
    ("minecraft:soul_lantern", {}),
    ("minecraft:magma_block", {}),
    ("minecraft:glowstone", {}),
    ("minecraft:glass", {}),
    ("minecraft:bedrock", {}),
    ("minecraft:water", {}),
    ("minecraft:lava", {}),
    ("minecraft:rail", {}),
    ("minecraft:redstone_lamp", {"lit": "true"}),
    ("minecraft:redstone_lamp", {"lit": "false"}),
    ("minecraft:redstone_lamp", {}),
]
FAINT = [("minecraft:magma_block", {}), ("minecraft:soul_torch", {}), ("minecraft:soul_lantern", {})]
OWN = [("cave:felt", {}), ("cave:fog", {"thick": "yes"}), ("cave:fog", {})] * 6 + [("cave:*", {}), ("*", {})]


class MarkingWriter(Writer):
    """Writes NBT, and keeps where each id, length, count, number and text stands."""

    def __init__(self, rng):
        super().__init__()
        self.rng, self.at, self.marks = rng, 0, []

    def put(self, data, mark):
        self.marks.append((mark, self.at, len(data)))
        self.at += len(data)
        super().put(data, mark)

    def drawn_state(self, state):
        """A block state; one without properties has an empty compound of them now and then."""
        name, props = state
        self.state(name, props, not props and self.rng.random() < 0.1)

    def noise(self, name, depth=0):
        """An entry that nobody asks for, of any kind."""
        rng = self.rng
        kind = rng.randrange(1, 13) if depth < 3 else rng.randrange(1, 9)
        self.name(kind, name)
        self.payload(kind, depth)

    def payload(self, kind, depth):
        rng = self.rng
        widths = {BYTE: 1, SHORT: 2, INT: 4, LONG: 8, FLOAT: 4, DOUBLE: 8}
        if kind in widths:
            self.put(rng.randbytes(widths[kind]), "number")
        elif kind == TEXT:
            self.text(rng.randbytes(rng.randrange(4)))
        elif kind in (BYTES, INTS, LONGS):
            count = rng.randrange(3)
            self.count(count)
            self.put(rng.randbytes(count * {BYTES: 1, INTS: 4, LONGS: 8}[kind]), "text")
        elif kind == LIST:
            inner = rng.randrange(1, 13) if depth < 3 else rng.randrange(1, 9)
            count = rng.choice([0, 0, 1, 2, -1])
            self.put(bytes([rng.choice([END, inner]) if count <= 0 else inner]), "id")
            self.count(count)
            for _ in range(count):
                self.payload(inner, depth + 1)
        else:
            for i in range(rng.randrange(3)):
                self.noise("abc"[i], depth + 1)
            self.end()


def rooms_of(rng, size):
    """The positions of a few rooms and passages, mostly over the lowest layer."""
    x_side, y_side, z_side = size
    box = [(x, y, z) for y in range(y_side) for z in range(z_side) for x in range(x_side)]
    free = set()
    for _ in range(rng.randrange(1, 6)):
        low = [rng.randrange(side) for side in size]
        high = [min(side, a + rng.randrange(1, 7)) for side, a in zip(size, low)]
        inside = [at for at in box if all(a <= b < c for a, b, c in zip(low, at, high))]
        free |= {at for at in inside if at[1] > 0 or rng.random() < 0.05}
    return box, free


def cave_of(rng, own=0.0):
    """The sides, and the state at each position: rooms in rock, with other blocks here and there and a few lights; so
    often with such that only a table of the user's may know."""
    size = tuple(rng.randrange(1, most) for most in (10, 7, 10))
    has_own = rng.random() < own
    ground = rng.choice(OWN if has_own and rng.random() < 0.5 else GROUND)
    room = rng.choice(OWN if has_own and rng.random() < 0.4 else ROOM)
    box, free = rooms_of(rng, size)
    states = {at: room if at in free else ground for at in box}
    odds = rng.choice([0, 0, 0.01, 0.05, 0.2])
    for at in box:
        if rng.random() < odds:
            states[at] = rng.choice(rng.choice([GROUND, ROOM, RARE, RARE]))
        if has_own and rng.random() < 0.1:
            states[at] = rng.choice(OWN)
        if rng.random() < odds / 4:
            del states[at]
    for at in rng.sample(sorted(states), min(len(states), rng.choice([0, 0, 1, 2]))):
        states[at] = rng.choice(FAINT)
    return size, states


def felt_cave(rng):
    """Winding passages, two high, in a block that holds no torch. Stone lies under enough of their cells that a torch
    on it lights each cell: few places, and so trees with branches of a few kids."""
    side = rng.randrange(6, 15)
    size = (side, 4, rng.randrange(4, 15))
    at, path = (rng.randrange(1, size[0] - 1), rng.randrange(1, size[2] - 1)), []
    for _ in range(rng.randrange(1, 12)):
        x, z = rng.choice([(1, 0), (-1, 0), (0, 1), (0, -1)])
        for _ in range(rng.randrange(2, 12)):
            path.append(at)
            at = (min(max(at[0] + x, 1), size[0] - 2), min(max(at[1] + z, 1), size[2] - 2))
    box = [(x, y, z) for y in range(4) for z in range(size[2]) for x in range(side)]
    states = {(x, y, z): ROOM[0] if (x, z) in path and y in (1, 2) else OWN[0] for x, y, z in box}
    reach = rng.choice([5, 13])
    left = list(dict.fromkeys(path))
    while left:
        x, z = rng.choice(left)
        states[x, 0, z] = GROUND[0]
        left = [(a, b) for a, b in left if abs(a - x) + abs(b - z) > reach or rng.random() < 0.1]
    more = rng.choice([0, 0.1, 0.3])
    for x, z in path:
        if rng.random() < more:
            states[x, 0, z] = GROUND[0]
    return size, states


def structure_file(rng, size, states):
    """The file and its marks."""
    out = MarkingWriter(rng)
    palette = list(dict.fromkeys((name, tuple(props.items())) for name, props in states.values()))
    if rng.random() < 0.2:
        palette.append(("minecraft:unused", ()))
    if rng.random() < 0.3:
        rng.shuffle(palette)
    index_of = {state: index for index, state in enumerate(palette)}
    entries = [(at, index_of[name, tuple(props.items())]) for at, (name, props) in states.items()]
    if rng.random() < 0.2:
        rng.shuffle(entries)
    for at, _ in rng.sample(entries, min(len(entries), rng.choice([0, 0, 0, 2]))):
        entries.insert(0, (at, rng.randrange(len(palette))))  # an earlier entry, which doesn't count

    def put_palette():
        out.compounds("palette", len(palette))
        for name, props in palette:
            out.drawn_state((name, dict(props)))

    def put_blocks():
        out.compounds("blocks", len(entries))
        noisy = rng.random() < 0.1
        for at, index in entries:
            if noisy and rng.random() < 0.2:
                out.noise("nbt")
            out.block(at, index)

    out.name(COMPOUND, rng.choice(["", "", "", "root"]))
    parts = [lambda: out.ints("size", size), put_palette, put_blocks]
    for _ in range(rng.choice([0, 0, 0, 1, 2])):
        parts.append(lambda: out.noise(rng.choice(["entities", "DataVersion", "author"])))
    if rng.random() < 0.3:
        rng.shuffle(parts)
    for part in parts:
        part()
    out.end()
    return out.file() + (b"\x1f\x8b" if rng.random() < 0.05 else b""), out.marks


KINDS_OF_ROWS = [
    {"opacity": 0, "free": "true", "put": "true"},
    {"opacity": 0, "free": "true"},
    {"opacity": 15, "stand": "true", "top": "true", "side": "true"},
    {"opacity": 15, "stand": "true"},
    {"opacity": 3, "free": "true"},
    {"opacity": 0, "emission": 4, "free": "true"},
    {"opacity": 15, "emission": 2, "top": "true"},
]
WRONG = ["name = 3", "opacity = 16", "opacity = -1", "opacity = 1.0", 'emission = "2"', "free = 1", "when = []"]
WRONG += ["extra = 1", "when = { a = 1 }", "put = true", "opacity = true", "emission = 0x0f", "top = 'yes'"]
WRONG += ["stand = 0"]


def row_lines(rng):
    """The lines of a row of a table, mostly a right one."""
    name = rng.choice(["cave:felt", "cave:fog"] * 3 + ["*", "*", "minecraft:stone", "minecraft:air", "k\u00e4se"])
    quotes = rng.choice(['"', '"', "'", '"' * 3])
    row = {"name": f"{quotes}{name}{quotes}", **rng.choice(KINDS_OF_ROWS)}
    if rng.random() < 0.3:
        row[rng.choice(["free", "stand", "top", "side"])] = rng.choice(["true", "false"])
    if rng.random() < 0.2:
        row[rng.choice(["opacity", "emission"])] = rng.choice([0, 1, 5, 14, 15])
    lines = [f"{key} = {value}" for key, value in row.items()]
    if rng.random() < 0.3:
        whens = ['when = { thick = "yes" }', "when = {}", 'when.thick = "yes"', 'when."facing" = "north"']
        lines += [rng.choice(whens)]
    if rng.random() < 0.05:
        line = rng.choice(WRONG)
        lines = [other for other in lines if not other.startswith(line.split(" ")[0])] + [line]
    if rng.random() < 0.05:
        del lines[rng.randrange(len(lines))]
    if rng.random() < 0.3:
        rng.shuffle(lines)
    return lines


def table_of(rng):
    """A table of a few rows, as an array of tables or in one line."""
    rows = [row_lines(rng) for _ in range(rng.randrange(7))]
    if rng.random() < 0.5:
        rows += [['name = "cave:felt"', "opacity = 15", "stand = true"], ['name = "*"', "opacity = 0", "free = true"]]
    if rng.random() < 0.2:
        text = "row = [" + ", ".join("{ " + ", ".join(row) + " }" for row in rows) + "]\n"
    else:
        text = "".join("[[row]]\n" + "".join(line + "\n" for line in row) for row in rows)
    if rng.random() < 0.05:
        text = rng.choice(["x = 1\n", "# a table\n", "\ufeff", "row = 3\n", "row = [1]\n", "[row]\n"]) + text
    return text.encode()
