"""New torches as blocks: their states, the box about them, what to carry, and the blocks that they replace."""
import re

STACK = 64
AIR = ("minecraft:air", {})

# Names of blocks, and the words of their properties (Minecraft Wiki, "Resource location", "Block states").
NAME = re.compile(r"[a-z0-9_.-]+:[a-z0-9_./-]+")
WORD = re.compile(r"[a-z0-9_]+")


def state_of(torch):
    """The block state of a torch that hangs so: a name and properties (Minecraft Wiki, "Torch")."""
    *_, hang = torch
    return ("minecraft:torch", {}) if hang == "floor" else ("minecraft:wall_torch", {"facing": hang})


def bounds(torches):
    """The lowest corner and the sides of the least box that has all torches; without any, one cell at the corner."""
    places = [torch[:3] for torch in torches] or [(0, 0, 0)]
    low = tuple(map(min, zip(*places)))
    high = tuple(map(max, zip(*places)))
    return low, tuple(last - first + 1 for first, last in zip(low, high))


def replaced(box, torch):
    """The block state that a torch takes the place of. What no game could have written counts as air."""
    name, props = box.state_at(*torch[:3]) or AIR
    if not NAME.fullmatch(name):
        return AIR
    return name, {key: value for key, value in props.items() if WORD.fullmatch(key) and WORD.fullmatch(value)}


def argument(state):
    """A block state as commands have it (Minecraft Wiki, "Argument types", block_state)."""
    name, props = state
    inner = ",".join(f"{key}={value}" for key, value in sorted(props.items()))
    return f"{name}[{inner}]" if inner else name


def load(count):
    """What to carry, by stacks where it is more than one."""
    full, rest = divmod(count, STACK)
    told = f"{count} torch{'' if count == 1 else 'es'}"
    if count > STACK:
        told += f" ({full} stack{'' if full == 1 else 's'} of {STACK}{f' and {rest}' if rest else ''})"
    return told
