"""Changes of valid input, for the scripts beside this file: bytes and texts at random, and pieces with a meaning."""
import math, struct

LENGTHS = [0, 1, 2, 3, 255, 256, 65_535]
COUNTS = [0, 1, 2, -1, -2, 2**31 - 1, -(2**31), 65_536, 262_144, 262_145]
NUMBERS = [0, 1, -1, 2, 127, 128, 129, 255, 256, 2**31 - 1, -(2**31)]

# The words that a node's line begins with; D is also that of a region's cells.
NODES = ("L", "B", "E", "W", "D", "P")


def byte_set(rng, data):
    at = rng.randrange(len(data))
    return data[:at] + bytes([rng.randrange(256)]) + data[at + 1 :]


def bit_flipped(rng, data):
    at = rng.randrange(len(data))
    return data[:at] + bytes([data[at] ^ 1 << rng.randrange(8)]) + data[at + 1 :]


def cut(rng, data):
    return data[: rng.randrange(len(data))]


def slice_of(rng, data):
    at = rng.randrange(len(data))
    return at, min(len(data), at + rng.choice([1, 2, 3, 4, 8, 30, 200]))


def slice_left_out(rng, data):
    at, end = slice_of(rng, data)
    return data[:at] + data[end:]


def slice_doubled(rng, data):
    at, end = slice_of(rng, data)
    return data[:end] + data[at:]


def slice_moved(rng, data):
    at, end = slice_of(rng, data)
    rest = data[:at] + data[end:]
    to = rng.randrange(len(rest) + 1)
    return rest[:to] + data[at:end] + rest[to:]


def bytes_put_in(rng, data):
    at = rng.randrange(len(data) + 1)
    return data[:at] + rng.randbytes(rng.choice([1, 2, 4, 16])) + data[at:]


BYTE_WAYS = [byte_set, bit_flipped, cut, slice_left_out, slice_doubled, slice_moved, bytes_put_in]


def bytes_changed(rng, data):
    return rng.choice(BYTE_WAYS)(rng, data) if data else rng.randbytes(3)


def mark_changed(rng, data, marks):
    """An id, a length, a count, a number or a text changed where it stands."""
    [wanted] = rng.choices(["id", "length", "count", "number", "text"], [2, 2, 2, 6, 2])
    fitting = [mark for mark in marks if mark[0] == wanted and mark[2] > 0]
    if not fitting:
        return bytes_changed(rng, data)
    # the first ones are those of the head, the palette and the sides, which are few
    kind, at, width = rng.choice(fitting[:12] if rng.random() < 0.3 else fitting)
    old = data[at : at + width]
    if kind == "id":
        new = bytes([rng.choice([*range(14), rng.randrange(256)])])
    elif kind == "text":
        new = rng.choice([bytes_changed(rng, old)[:width].ljust(width, b"\0"), old.upper(), rng.randbytes(width)])
    else:
        of_number = (f">{' bh i   q'[width]}", NUMBERS)
        form, special = {"length": (">H", LENGTHS), "count": (">i", COUNTS)}.get(kind, of_number)
        was = struct.unpack(form, old)[0]
        wish = rng.choice([was - 1, was + 1, rng.randrange(5), rng.choice(special)])
        new = (wish % (1 << 8 * width)).to_bytes(width, "big")
    return data[:at] + new + data[at + width :]


def structure_changed(rng, data, marks):
    """The file after one to three changes, the first of which may know where the pieces stand."""
    if rng.random() < 0.7:
        data = mark_changed(rng, data, marks)
        more = rng.choice([0, 0, 0, 1])
    else:
        more = rng.randrange(1, 4)
    for _ in range(more):
        data = bytes_changed(rng, data)
    return data


def number_changed(rng, words):
    """One number of a line made another."""
    at = [i for i, word in enumerate(words) if word.isdigit()]
    if not at:
        return words
    i = rng.choice(at)
    was = int(words[i])
    wish = rng.choice([was + 1, was - 1, was + 1, was - 1, was * 10, 0, 10**20, rng.randrange(was + 50)])
    text = rng.choice(["{}"] * 12 + ["0{}", "+{}", "{}.0", " {}", "{}\t", "{}\r"]).format(max(wish, 0))
    return words[:i] + [text.encode()] + words[i + 1 :]


def line_changed(rng, line):
    words = line.split(b" ")
    way = rng.randrange(10)
    if way < 6:
        words = number_changed(rng, words)
    elif way == 6 and len(words) > 2:
        i = rng.randrange(1, len(words))
        words = words[:i] + words[i + 1 :]
    elif way == 7 and len(words) > 2:
        i = rng.randrange(1, len(words))
        words = words[:i] + [words[i]] + words[i:]
    elif way == 8 and len(words) > 2:
        i, j = rng.randrange(1, len(words)), rng.randrange(1, len(words))
        words[i], words[j] = words[j], words[i]
    elif way == 9:
        words[0] = rng.choice([b"L", b"B", b"E", b"W", b"G", b"D", b"P", b"T", b"end", b"region", b""])
    return b" ".join(words)


def lines_changed(rng, data):
    """One line left out, doubled, exchanged with another, moved or changed."""
    lines = data.split(b"\n")[:-1]
    i, j = rng.randrange(len(lines)), rng.randrange(len(lines))
    way = rng.randrange(12)
    if way == 0:
        del lines[i]
    elif way == 1:
        lines.insert(i, lines[i])
    elif way == 2:
        lines[i], lines[j] = lines[j], lines[i]
    elif way == 3:
        lines.insert(j, lines.pop(i))
    else:
        lines[i] = line_changed(rng, lines[i])
    return b"".join(line + b"\n" for line in lines)


def cells_forged(rng, cells, known):
    """An ascending list that differs in a cell or two."""
    cells, way = set(cells), rng.randrange(4)
    if cells and way != 0:
        cells.remove(rng.choice(sorted(cells)))
    if not cells or way != 1:
        near = rng.choice(known) + rng.choice([0, 0, 1, -1])
        cells.add(max(near, 0))
    return sorted(cells)


def group_forged(rng, numbers, known):
    """A group whose capacity, weights or cells differ a little."""
    capacity, weights, way = numbers[0], dict(zip(numbers[2::2], numbers[3::2])), rng.randrange(3)
    if way == 0:
        capacity = max(capacity + rng.choice([1, -1]), 0)
    elif way == 1:
        cell = rng.choice(sorted(weights))
        weights[cell] = max(weights[cell] + rng.choice([1, -1]), 0)
    else:
        weights = {cell: weights.get(cell, 1) for cell in cells_forged(rng, weights, known)}
    return [capacity, len(weights), *(number for cell in sorted(weights) for number in (cell, weights[cell]))]


def tree_end(lines, at):
    """The line behind the tree whose first line stands here."""
    owed = 1
    while owed > 0 and at < len(lines) and lines[at][0] in NODES:
        word, *numbers = lines[at]
        owed += {"B": int(numbers[-1]) - 1, "E": 0, "D": 0, "P": 1}.get(word, -1)
        at += 1 + (int(numbers[0]) if word == "W" else 0)
    return min(at, len(lines))


def place_forged(rng, lines, at, known):
    """A place for a pick: a known cell or one beside it, a place that the lines before pick or bar, the number of the
    last cell, or one more."""
    above = [line[1] for line in lines[:at] if line[0] in ("P", "E")]
    sides = [int(side) for line in lines if line[0] == "box" for side in line[1:]]
    ways = [rng.choice(known), rng.choice(known) + rng.choice([1, -1]), math.prod(sides) - rng.choice([0, 1])]
    return max(int(rng.choice([*ways, rng.choice(above)] if above else ways)), 0)


def pick_forged(rng, lines, at, known):
    """The lines with another place in this pick, two places, its trees exchanged, the first one twice, or one alone."""
    middle = tree_end(lines, at + 1)
    end = tree_end(lines, middle)
    pick, first, second = lines[at], lines[at + 1 : middle], lines[middle:end]
    way = rng.randrange(8)
    if way < 4:
        pick = ["P", str(place_forged(rng, lines, at, known))]
    elif way == 4:
        pick = [*pick, rng.choice(pick[1:])]
    trees = {5: [*second, *first], 6: [*first, *first], 7: rng.choice([first, second])}.get(way, [*first, *second])
    return [*lines[:at], pick, *trees, *lines[end:]]


def pick_put_in(rng, lines, known):
    """The lines with a pick above some node, whose tree stands below it twice; mostly in the version that has picks."""
    is_node = lambda at: lines[at][0] in NODES and lines[at - 1][0] != "region"
    nodes = [at for at in range(1, len(lines)) if is_node(at)]
    if not nodes:
        return lines
    at = rng.choice(nodes)
    end = tree_end(lines, at)
    tree = lines[at:end]
    lines = [*lines[:at], ["P", str(place_forged(rng, lines, at, known))], *tree, *tree, *lines[end:]]
    if lines[0][-1] in ("2", "3") and rng.random() < 0.7:
        lines[0] = ["torchproof", "4"]
    return lines


def certificate_forged(rng, data):
    """A text of the same form that says something else: other cells, torches, branches, bars, picks, groups or heads,
    with the counts that belong to them."""
    lines = [line.split(" ") for line in data.decode().split("\n")[:-1]]
    known = [int(word) for line in lines if line[0] in "DTL" for word in line[1:]] or [0]
    if rng.random() < 0.1:
        return joined(pick_put_in(rng, lines, known))
    head = [at for at, line in enumerate(lines) if line[0] not in ("T", "G", *NODES)]
    body = [at for at in range(len(lines)) if at not in head]
    at = rng.choice(body if body and rng.random() < 0.9 else head)
    word, numbers = lines[at][0], [int(one) for one in lines[at][1:] if one.isdigit()]
    # a region's cells stand below its head, those that a tree leaves out further down
    if word == "T" or word == "D" and lines[at - 1][0] == "region":
        cells = cells_forged(rng, numbers, known)
        head = next(i for i in range(at, -1, -1) if lines[i][0] == "region")
        lines[head][1 if word == "D" else 2] = str(len(cells))
        lines[at] = [word, *map(str, cells)]
    elif word in "LD":
        cells = cells_forged(rng, numbers[1:], known)
        lines[at] = [word, str(len(cells)), *map(str, cells)]
        if rng.random() < 0.2:
            lines.insert(at, ["E", str(rng.choice(known)), str(rng.choice(known))])
    elif word == "B":
        kids = max(numbers[1] + rng.choice([0, 0, 1]), 0)
        lines[at] = ["B", str(rng.choice([numbers[0], rng.choice(known)])), str(kids)]
        lines[at + 1 : at + 1] = [["L", "0"]] * (kids - numbers[1])
    elif word == "P":
        lines = pick_forged(rng, lines, at, known)
    elif word == "G":
        lines[at] = ["G", *map(str, group_forged(rng, numbers, known))]
    elif word == "E":
        other = rng.choice(known)
        lines[at] = ["E", *map(str, rng.choice([numbers[::-1], [other, numbers[1]], [numbers[0], other]]))]
    elif word == "torchproof":
        lines[at] = [word, str(rng.randrange(1, 6))]
    elif word in ("box", "region"):
        rng.shuffle(numbers)
        lines[at] = [word, *map(str, numbers)]
    elif word == "headroom":
        lines[at] = [word, str(3 - numbers[0])]
    elif word == "need":
        lines[at] = [word, str(9 - numbers[0])]
    return joined(lines)


def joined(lines):
    """The text of these lines, told by their words."""
    return "".join(" ".join(line) + "\n" for line in lines).encode()


def certificate_changed(rng, data):
    """The text after one to three changes, of what it says or of how it says it."""
    ways = rng.choice([1, 1, 1, 2, 3])
    if rng.random() < 0.6:
        for _ in range(ways):
            data = certificate_forged(rng, data)
        return data
    for _ in range(ways):
        way = lines_changed if rng.random() < 0.85 and b"\n" in data else bytes_changed
        data = way(rng, data)
    return data
