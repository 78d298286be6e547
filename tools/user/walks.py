"""The order in which torches are placed: a short walk, layer by layer where that costs little."""

ONE_LAYER_MORE = 1.2  # by how much a walk by layers may be longer
FEW = 12  # of up to this number of torches each is tried as the first, of more only the one in the corner
TRIES = 1_000_000  # pairs of steps that are looked at for a shorter way


def distance(one, other):
    """How many blocks lie between two places."""
    return abs(one[0] - other[0]) + abs(one[1] - other[1]) + abs(one[2] - other[2])


def length(walk):
    return sum(map(distance, walk, walk[1:]))


def nearest_next(places, first):
    """A walk from one of the places that always goes on to the nearest."""
    left = [place for place in places if place is not first]
    walk = [first]
    while left:
        walk.append(min(left, key=lambda place: distance(walk[-1], place)))
        left.remove(walk[-1])
    return walk


def uncrossed(walk, start=0):
    """The walk, of which parts from `start` on are turned round for as long as that makes it shorter (2-opt)."""
    walk, count, tries, is_shorter = walk[:], len(walk), 0, True
    while is_shorter and tries < TRIES:
        is_shorter = False
        for first in range(start, count - 1):
            tries += count - first
            for last in range(first + 1, count):
                before = distance(walk[first - 1], walk[first]) if first else 0
                after = distance(walk[last], walk[last + 1]) if last + 1 < count else 0
                turned = distance(walk[first - 1], walk[last]) if first else 0
                turned += distance(walk[first], walk[last + 1]) if last + 1 < count else 0
                if turned < before + after:
                    walk[first : last + 1] = walk[first : last + 1][::-1]
                    is_shorter = True
    return walk


def short_walk(places):
    """A short walk over all places."""
    firsts = places if len(places) <= FEW else [min(places, key=lambda place: place[0] + place[2])]
    walks = [uncrossed(nearest_next(places, first)) for first in firsts]
    return min(walks, key=length) if walks else []


def by_layers(places):
    """A walk over one layer after the other, from the lowest, each begun near to where the last one ends."""
    walk = []
    for y in sorted({place[1] for place in places}):
        layer = [place for place in places if place[1] == y]
        if not walk:
            walk = short_walk(layer)
            continue
        nearest = min(layer, key=lambda place: distance(walk[-1], place))
        walk += uncrossed([walk[-1], *nearest_next(layer, nearest)], 1)[1:]
    return walk


def in_order(torches):
    """The torches in the order of a walk."""
    free, layered = short_walk(torches), by_layers(torches)
    return layered if length(layered) <= ONE_LAYER_MORE * length(free) else free
