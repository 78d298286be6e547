"""What a cave means, calculated apart from the program: light, dark cells, places, what they light, and the texts that
the program owes, for the scripts beside this file."""
import repository  # it makes the modules of ../user known
from rows import TORCH

HANGS = {"floor": (0, -1, 0), "north": (0, 0, 1), "east": (-1, 0, 0), "south": (0, 0, -1), "west": (1, 0, 0)}
SIGNS = {"floor": "T", "north": "^", "east": ">", "south": "v", "west": "<"}


class Cave:
    """A box, the row of each position that has an entry, and the rule. Light never enters a position without one."""

    def __init__(self, size, classes, headroom, need):
        self.size, self.classes, self.headroom, self.need = size, classes, headroom, need
        x_side, y_side, z_side = size
        self.count = x_side * y_side * z_side
        self.levels = self.levels_from({at: row.emission for at, row in classes.items() if row.emission > 0})
        self.dark = sorted((at for at in classes if self.is_dark(at)), key=self.number)
        self.hangs = {at: hang for at in sorted(classes, key=self.number) if (hang := self.hang_of(at))}

    def number(self, at):
        x, y, z = at
        return (y * self.size[2] + z) * self.size[0] + x

    def position(self, number):
        rest, x = divmod(number, self.size[0])
        y, z = divmod(rest, self.size[2])
        return x, y, z

    def levels_from(self, sources):
        """The greatest level over all paths that begin at one of the sources: from the brightest down."""
        levels, rounds = dict(sources), [[] for _ in range(16)]
        for at, level in sources.items():
            rounds[level].append(at)
        for level in range(15, 0, -1):
            for at in rounds[level]:
                if levels[at] != level:
                    continue
                x, y, z = at
                for other in ((x - 1, y, z), (x + 1, y, z), (x, y - 1, z), (x, y + 1, z), (x, y, z - 1), (x, y, z + 1)):
                    row = self.classes.get(other)
                    if row is not None:
                        brought = level - max(1, row.opacity)
                        if brought > levels.get(other, 0):
                            levels[other] = brought
                            rounds[brought].append(other)
        return levels

    def has(self, at, column):
        row = self.classes.get(at)
        return row is not None and getattr(row, column)

    def is_dark(self, at):
        x, y, z = at
        room = self.has(at, "free") and (self.headroom == 1 or self.has((x, y + 1, z), "free"))
        return room and self.has((x, y - 1, z), "stand") and self.levels.get(at, 0) < self.need

    def may_hang(self, at, hang):
        holder = tuple(a + b for a, b in zip(at, HANGS[hang]))
        return self.has(at, "put") and self.has(holder, "top" if hang == "floor" else "side")

    def hang_of(self, at):
        return next((hang for hang in HANGS if self.may_hang(at, hang)), None)

    def lit_from(self, at):
        """The positions to which a torch there brings as much light as is needed."""
        return {other for other, level in self.levels_from({at: 14}).items() if level >= self.need}

    def with_torches(self, torches):
        return Cave(self.size, {**self.classes, **{at: TORCH for at in torches}}, self.headroom, self.need)

    def dark_text(self):
        return f"dark {len(self.dark)}\n" + "".join(f"{x} {y} {z}\n" for x, y, z in self.dark)

    def unlightable(self):
        """The first dark cell that no place lights."""
        lit = set()
        for place in self.hangs:
            lit |= self.lit_from(place)
        return next((at for at in self.dark if at not in lit), None)

    def sign(self, at, torches):
        if at in torches:
            return SIGNS[self.hangs[at]]
        row = self.classes.get(at)
        return "#" if row is None else "*" if row.emission > 0 else "." if row.free else "#"

    def plan_text(self, torches, least=None):
        """The text of a plan with torches at these places; where it was stopped, no fewer than `least` do."""
        x_side, _, z_side = self.size
        torches = sorted(torches, key=self.number)
        lines = [f"torches {len(torches)}" + ("" if least is None else f" at-least {least}"), f"dark {len(self.dark)}"]
        lines += [f"T {x} {y} {z} {self.hangs[x, y, z]}" for x, y, z in torches]
        for y in sorted({y for _, y, _ in torches}):
            lines.append(f"layer {y}")
            lines += ["".join(self.sign((x, y, z), torches) for x in range(x_side)) for z in range(z_side)]
        return "".join(line + "\n" for line in lines)
