"""Judging certificates, written apart from the program, for the scripts beside this file."""
import re
from collections import namedtuple

NUMBER = re.compile(rb"0|[1-9][0-9]*")
Region = namedtuple("Region", "torches cells places nodes")
Node = namedtuple("Node", "line kind numbers")

# The first lines, and the nodes that each version has.
VERSIONS = {f"torchproof {version}".encode(): version for version in (1, 2, 3, 4)}
KINDS = {1: "L B", 2: "L B E", 3: "L B E W D", 4: "L B E W D P"}


class Misfit(Exception):
    """Why a certificate is rejected."""


class Lines:
    """The lines of a text, each to be read once."""

    def __init__(self, data):
        self.lines = data.split(b"\n")
        self.rest = self.lines.pop()
        self.at = 0

    def misfit(self):
        return Misfit(f"syntax line {self.at}")

    def next(self):
        self.at += 1
        if self.at > len(self.lines):
            raise self.misfit()
        return self.lines[self.at - 1]

    def words(self, word, kinds=None):
        """The numbers of a line that begins with this word."""
        first, *rest = self.next().split(b" ")
        if first.decode("latin-1") not in word.split():
            raise self.misfit()
        # a number of more digits than 18 is out of every range
        if not all(NUMBER.fullmatch(one) for one in rest):
            raise self.misfit()
        numbers = [int(one) if len(one) <= 18 else 10**18 for one in rest]
        if kinds is not None and len(numbers) != kinds:
            raise self.misfit()
        return first.decode(), numbers

    def fits(self, is_fitting):
        if not is_fitting:
            raise self.misfit()

    def ends(self):
        if self.next() != b"end":
            raise self.misfit()
        if len(self.lines) > self.at or self.rest:
            self.at += 1
            raise self.misfit()


def is_list(cells, below):
    return all(a < b for a, b in zip(cells, cells[1:])) and (not cells or cells[-1] < below)


def is_weight(number):
    return 1 <= number < 2**32


def groups_of(lines, many, count):
    """The groups of a weighted leaf: of each its capacity, and each of its cells with a weight."""
    groups, least = [], 0
    for left in range(many, 0, -1):
        _, numbers = lines.words("G")
        lines.fits(len(numbers) >= 4 and len(numbers) == 2 + 2 * numbers[1])
        capacity, cells, weights = numbers[0], numbers[2::2], numbers[3::2]
        lines.fits(is_weight(capacity) and all(map(is_weight, weights)) and is_list(cells, count))
        # each group after this one has a greater first cell
        lines.fits(least <= cells[0] and cells[0] + left <= count)
        groups.append((capacity, dict(zip(cells, weights))))
        least = cells[0] + 1
    return groups


def tree_of(lines, version, count):
    nodes, owed = [], 1
    while owed > 0:
        kind, numbers = lines.words(KINDS[version])
        lines.fits(len(numbers) >= 1)
        at = lines.at
        if kind in "LD":
            lines.fits(numbers[0] <= count and len(numbers) == numbers[0] + 1 and is_list(numbers[1:], count))
            lines.fits(kind == "L" or numbers[0] >= 1)
            owed -= kind == "L"
        elif kind == "B":
            lines.fits(len(numbers) == 2 and numbers[0] < count and numbers[1] <= count)
            owed += numbers[1] - 1
        elif kind == "W":
            lines.fits(len(numbers) == 1 and 1 <= numbers[0] <= count)
            numbers = groups_of(lines, numbers[0], count)
            owed -= 1
        elif kind == "P":
            lines.fits(len(numbers) == 1 and numbers[0] < count)
            owed += 1
        else:
            lines.fits(len(numbers) == 2 and max(numbers) < count)
        nodes.append(Node(at, kind, numbers))
    return nodes


def read(data):
    """What a certificate says: box, headroom, need and regions."""
    lines = Lines(data)
    version = VERSIONS.get(lines.next())
    lines.fits(version is not None)
    _, box = lines.words("box", 3)
    count = box[0] * box[1] * box[2]
    lines.fits(max(box) <= 128 and count <= 262_144)
    _, [headroom] = lines.words("headroom", 1)
    lines.fits(headroom in (1, 2))
    need = 1
    if version > 1:
        _, [need] = lines.words("need", 1)
        lines.fits(need in (1, 8))
    _, [many] = lines.words("regions", 1)
    lines.fits(many <= count)
    regions = []
    for _ in range(many):
        _, [cells, torches] = lines.words("region", 2)
        lines.fits(1 <= cells <= count and 1 <= torches <= count)
        _, dark = lines.words("D")
        lines.fits(len(dark) == cells and is_list(dark, count))
        _, places = lines.words("T")
        lines.fits(len(places) == torches and is_list(places, count))
        regions.append(Region(torches, dark, places, tree_of(lines, version, count)))
    lines.ends()
    return tuple(box), headroom, need, regions


class Coverage:
    """Which places light which cells, by the numbers of cells."""

    def __init__(self, cave):
        self.dark = [cave.number(at) for at in cave.dark]
        self.lit = {cave.number(place): {cave.number(at) for at in cave.lit_from(place)} for place in cave.hangs}
        self.by = {}
        for place in sorted(self.lit):
            for cell in self.lit[place]:
                self.by.setdefault(cell, []).append(place)


def weighs_too_much(coverage, groups, barred):
    """Whether a place that isn't barred lights more of a group than its capacity, or cells of two groups."""
    loads = {}
    for index, (capacity, weights) in enumerate(groups):
        for cell, weight in weights.items():
            for place in coverage.by.get(cell, []):
                group, load = loads.get(place, (index, 0))
                loads[place] = index, load + weight
                if place not in barred and (group != index or load + weight > capacity):
                    return True
    return False


def bad_node(coverage, cells, node, chosen, barred):
    """Whether the rules of trees refuse this node, and what stands chosen and barred below it, of which cells."""
    is_unlit = lambda cell: cell in cells and not any(cell in coverage.lit[place] for place in chosen)
    if node.kind == "E":
        place, by = node.numbers
        legal = place != by and place in coverage.lit and by in coverage.lit
        if not legal or place in barred or by in barred or place in chosen:
            return True, []
        left = filter(is_unlit, coverage.lit[place] & cells)
        return not all(cell in coverage.lit[by] for cell in left), [(chosen, barred | {place}, cells)]
    if node.kind == "P":
        [place] = node.numbers
        is_bad = place not in coverage.lit or place in chosen or place in barred
        return is_bad, [(chosen | {place}, barred, cells), (chosen, barred | {place}, cells)]
    if node.kind == "D":
        return not cells.issuperset(node.numbers[1:]), [(chosen, barred, cells.difference(node.numbers[1:]))]
    if node.kind == "W":
        weighed = [cell for _, weights in node.numbers for cell in weights]
        is_bad = len(set(weighed)) < len(weighed) or not all(map(is_unlit, weighed))
        return is_bad or weighs_too_much(coverage, node.numbers, barred), []
    if node.kind == "L":
        # a packing: of each cell's group no place lights another cell
        groups = [(1, {cell: 1}) for cell in node.numbers[1:]]
        return not all(map(is_unlit, node.numbers[1:])) or weighs_too_much(coverage, groups, barred), []
    cell, kids = node.numbers
    if not is_unlit(cell):
        return True, []
    places = [place for place in coverage.by.get(cell, []) if place not in barred]
    if len(places) != kids:
        return True, []
    return False, [(chosen | {place}, barred | set(places[:i]), cells) for i, place in enumerate(places)]


def proved_by(node):
    """How many places a leaf shows to be needed beside the chosen ones."""
    if node.kind == "L":
        return node.numbers[0]
    return sum(-(-sum(weights.values()) // capacity) for capacity, weights in node.numbers)


def check_trees(coverage, regions):
    weak = None
    for region in regions:
        owed = [(frozenset(), frozenset(), frozenset(region.cells))]
        for node in region.nodes:
            chosen, barred, cells = owed.pop()
            is_bad, below = bad_node(coverage, cells, node, chosen, barred)
            if is_bad:
                raise Misfit(f"bad node line {node.line}")
            if node.kind in "LW" and weak is None and len(chosen) + proved_by(node) < region.torches:
                weak = node.line
            owed += reversed(below)
    if weak is not None:
        raise Misfit(f"too weak line {weak}")


def check_cells(coverage, regions):
    """Torches at places, all dark cells lit, and regions that are parts of each other's own."""
    listed = [place for region in regions for place in region.places]
    for place in sorted(listed):
        if place not in coverage.lit or listed.count(place) > 1:
            raise Misfit(f"illegal place {place}")
    lit = set().union(*(coverage.lit[place] for place in listed))
    for cell in coverage.dark:
        if cell not in lit:
            raise Misfit(f"left dark {cell}")
    homes = {}
    for index, region in enumerate(regions):
        for cell in region.cells:
            homes.setdefault(cell, set()).add(index)
    dark = set(coverage.dark)
    bad = [cell for cell in dark if len(homes.get(cell, ())) != 1] + [cell for cell in homes if cell not in dark]
    for place, cells in coverage.lit.items():
        if len(set().union(*(homes.get(cell, set()) for cell in cells))) > 1:
            bad.append(place)
    if bad:
        raise Misfit(f"bad regions {min(bad)}")


def verdict(cave, data, coverage=None):
    """What is printed of a certificate of this cave."""
    try:
        box, headroom, need, regions = read(data)
        if (box, headroom, need) != (tuple(cave.size), cave.headroom, cave.need):
            raise Misfit("wrong box")
        coverage = coverage or Coverage(cave)
        check_cells(coverage, regions)
        check_trees(coverage, regions)
    except Misfit as why:
        return f"rejected: {why}\n"
    return f"accepted {sum(region.torches for region in regions)}\n"
