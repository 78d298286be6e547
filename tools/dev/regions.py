"""The regions of a cave, each a set cover instance of its own, calculated apart from the program, for the scripts beside
this file."""

AROUND = ((-1, 0, 0), (1, 0, 0), (0, -1, 0), (0, 1, 0), (0, 0, -1), (0, 0, 1))


class Region:
    """Dark cells and places by their numbers, ascending, and for each place the indices of the cells that it lights."""

    def __init__(self, cells, lit):
        index = {cell: at for at, cell in enumerate(cells)}
        self.cells, self.places = cells, sorted(lit)
        self.lit = [[index[cell] for cell in lit[place]] for place in self.places]


def regions_of(cave):
    """The cells that a chain of places joins, region by region, in the order of their first cells."""
    near = near_of(cave)
    dark = sorted(map(cave.number, cave.dark))
    unlit = set(dark)
    lit = {place: sorted(flooded(place, near, cave.need) & unlit) for place in map(cave.number, cave.hangs)}
    head = {cell: cell for cell in dark}

    def top(cell):
        while head[cell] != cell:
            head[cell] = cell = head[head[cell]]
        return cell

    for cells in lit.values():
        for cell in cells[1:]:
            head[top(cell)] = top(cells[0])
    cells_of, lit_of = {}, {}
    for cell in dark:
        cells_of.setdefault(top(cell), []).append(cell)
    for place, cells in lit.items():
        if cells:
            lit_of.setdefault(top(cells[0]), {})[place] = cells
    return [Region(cells, lit_of.get(first, {})) for first, cells in cells_of.items()]


def near_of(cave):
    """For each cell that light enters its neighbours, with what entering them costs."""
    near = {}
    for at in cave.classes:
        around = [tuple(map(sum, zip(at, step))) for step in AROUND]
        near[cave.number(at)] = [
            (cave.number(other), max(1, cave.classes[other].opacity)) for other in around if other in cave.classes
        ]
    return near


def flooded(place, near, need):
    """The cells to which a torch at the place brings the light that is needed."""
    levels, rounds = {place: 14}, [[] for _ in range(15)]
    rounds[14].append(place)
    for level in range(14, need, -1):
        for at in rounds[level]:
            if levels[at] == level:
                for other, cost in near[at]:
                    brought = level - cost
                    if brought >= need and brought > levels.get(other, 0):
                        levels[other] = brought
                        rounds[brought].append(other)
    return levels.keys()
