"""What came of all pieces of an area."""
import area_runs
import box_runs
import walks
from saying import counted


class Whole:
    """The plan of an area, by the world's coordinates.

    parts     extent and result of the pieces in which something changes, in the order of a walk
    torches   all torches, those last that light only what nobody gets to; apart are these alone
    states    what stands where torches are placed or taken away
    away      where torches are taken away; left are those of these places that lie in no piece
    placed    the torches that don't stand yet
    dark      how many cells were dark
    at_least  how many torches are needed at least, or None where no fewer do
    notes     what has to be known, in lines"""

    def __init__(self, pieces, results, stand):
        """`stand` are the states of the torches that may be taken away, by their places."""
        self.parts = walked([(piece.extent, result) for piece, result in zip(pieces, results)
                             if result.torches or result.away])
        in_order = [result for _, result in self.parts]
        found = [torch for result in in_order for torch in result.torches]
        self.apart = [torch for result in in_order for torch in result.apart]
        last = set(map(place_of, self.apart))
        self.torches = [torch for torch in found if place_of(torch) not in last] + self.apart
        self.states = {place_of(torch): tuple(state) for result in in_order
                       for torch, state in zip(result.torches, result.before)}
        self.states.update(stand)
        away = [tuple(at) for result in in_order for at in result.away]
        kept = stand.keys() & set(map(place_of, found)) - set(away)
        self.left = sorted(stand.keys() - kept - set(away))
        self.away = away + self.left
        self.placed = [torch for torch in self.torches if place_of(torch) not in kept]
        self.dark = sum(len(result.dark) for result in results)
        is_least = area_runs.is_least(pieces, results)
        self.at_least = None if is_least else area_runs.at_least(pieces, results)
        self.notes = list(dict.fromkeys(line for result in results for line in result.notes))
        self.notes += box_runs.apart_lines(self.apart)

    def told(self):
        """What is known of the whole."""
        if not self.torches:
            return "no cell is dark, no torch is needed"
        done = f"{counted(len(self.torches), 'torch', 'torches')} for {counted(self.dark, 'dark cell', 'dark cells')}"
        pieces = sum(bool(result.torches) for _, result in self.parts)
        done += f" in {counted(pieces, 'piece', 'pieces')}"
        if self.at_least is None:
            return f"{done}; fewer don't do, and each proof is checked"
        return f"{done}, safe, not proved least: at least {self.at_least:,} needed"

    def changes(self):
        """What changes where torches stand already: a line, where some do."""
        if not self.away and len(self.placed) == len(self.torches):
            return []
        return [f"take away {len(self.away):,}, place {len(self.placed):,}"]


def place_of(torch):
    return tuple(torch[:3])


def walked(parts):
    """The pieces in the order of a walk over their middles."""
    middles = {}
    for part in parts:
        middle = tuple((a + b) // 2 for a, b in zip(*part[0]))
        middles.setdefault(middle, []).append(part)
    return [part for middle in walks.in_order(list(middles)) for part in middles[middle]]
