"""Torches that stand already, where a plan is made as if they didn't: those that it takes away, and those that stay."""
from boxes import Box
from torches import AIR, state_of

NAMES = ("minecraft:torch", "minecraft:wall_torch")


def is_torch(state):
    return state[0] in NAMES


def torches_of(box, layers=0):
    """Where torches stand in a box, leaving out `layers` layers at each side."""
    kinds = {index for index, state in enumerate(box.palette) if is_torch(state)}
    places = (box.position(number) for number, cell in enumerate(box.cells) if cell in kinds)
    return [at for at in places if all(layers <= place < side - layers for place, side in zip(at, box.size))]


def without(box, places, layers=0):
    """The box with air in these places, which are told by the world's coordinates or its own, leaving out `layers`
    layers at each side."""
    own = [at for at in map(box.own, places)
           if all(layers <= place < side - layers for place, side in zip(at, box.size))]
    if not own:
        return box
    palette = box.palette if AIR in box.palette else [*box.palette, AIR]
    found = Box(box.size, palette, box.cells[:], box.corner, box.dimension, box.data_version, box.name)
    for at in own:
        found.cells[box.number(*at)] = palette.index(AIR)
    return found


def compared(box, places, torches):
    """The torches to take away, and the new ones to place: neither where one stands as it is planned."""
    planned = {tuple(torch[:3]): state_of(torch) for torch in torches}
    kept = {at for at in places if planned.get(at) == named(box.state_at(*at))}
    return [at for at in places if at not in kept], [torch for torch in torches if tuple(torch[:3]) not in kept]


def named(state):
    """A torch's state with the properties alone that tell how it hangs."""
    name, props = state
    return name, {key: value for key, value in props.items() if key == "facing"}
