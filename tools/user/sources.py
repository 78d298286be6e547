"""Where a cave comes from: a structure file, a schematic or a saved world."""
import os
from collections import namedtuple

import dimensions
import extents
import schematic_files
import shells
import structure_files
import worlds
import wrong_files
from nbt_reader import root_of
from refusals import Refusal, unreadable
from torches import state_of
from unpacking import plain, read_limited

# A box, or None where the file is one that the planner refuses; its structure file, or None where it has to be made; of
# a world a larger box about it; and what has to be known of it, in lines.
Cave = namedtuple("Cave", "box data around notes")

ENDINGS = (".gz", ".nbt", ".schem", ".litematic")


def name_of_file(path):
    """What to call the cave of a file."""
    name = os.path.basename(path)
    for ending in ENDINGS:
        name = name[: -len(ending)] if name.endswith(ending) and name != ending else name
    return name


def read_file(path, name):
    """The cave of a structure file, packed by gzip or not, or of a schematic."""
    if os.path.isdir(path) and os.path.isfile(os.path.join(path, "level.dat")):
        raise Refusal(f"{path}: a world's folder: use --world {path}")
    try:
        data = read_limited(path)
        wrong = wrong_files.of_file(path, data)
        data = data if wrong else plain(data)
    except OSError as fault:
        raise unreadable(path, fault) from None
    except Refusal as why:
        raise why.at(path) from None
    if wrong:
        raise Refusal(f"{path}: {wrong}")
    try:
        root = root_of(data, schematic_files.LEFT_OUT | structure_files.LEFT_OUT)
    except Refusal:
        return Cave(None, data, None, [])
    return read_root(path, name, data, root)


def read_root(path, name, data, root):
    """The cave of a file by its root."""
    wrong = wrong_files.of_root(root)
    if schematic_files.is_numbered(root):
        wrong = "a schematic of old, whose blocks are numbers: save it as .schem or .litematic"
    if wrong:
        raise Refusal(f"{path}: {wrong}")
    try:
        if schematic_files.is_litematic(root):
            return Cave(schematic_files.read_litematic(root, name), None, None, [])
        schematic = schematic_files.sponge_of(root)
        if schematic is not None:
            return Cave(schematic_files.read_sponge(schematic, name), None, None, [])
    except Refusal as why:
        raise why.at(path) from None
    try:
        return Cave(structure_files.structure_of(root, name), data, None, [])
    except Refusal:
        return Cave(None, data, None, [])


def name_of(world, extent, between=" "):
    """What to call an extent of a world, in words with something between them."""
    low, high = map(str, extent.low), map(str, extent.high)
    return between.join([world.name, *dimensions.plain(world.dimension), *low, "to", *high])


def extent_about(world, extent):
    """The larger extent about one of which something has to be known, within the heights of the world."""
    around, shelled = extents.grown(extent, shells.MARGIN), extents.grown(extent, 1)
    low, high = world.heights()
    bottom, top = min(shelled.low[1], max(around.low[1], low)), max(shelled.high[1], min(around.high[1], high))
    return extents.Extent((around.low[0], bottom, around.low[2]), (around.high[0], top, around.high[2]))


def read_world(world, extent, name, torches=()):
    """The cave of an extent: its box has one layer more on each side. Torches are as if they stood in the world, each
    told by the world's coordinates and how it hangs."""
    around = extent_about(world, extent)
    larger = worlds.read_box(world, around)
    put_in(larger, torches)
    return cave_within(larger, extent, name, list(missing_lines(world, extent, around)))


def cave_within(larger, extent, name, notes):
    """The cave of an extent of a larger box of the world: its box has one layer more on each side."""
    shelled = extents.grown(extent, 1)
    box = larger.part([at - first for at, first in zip(shelled.low, larger.corner)], extents.size_of(shelled))
    box.name = name
    return Cave(box, None, larger, notes)


def put_in(box, torches):
    """Puts torches into a box, those that lie in it."""
    for torch in torches:
        at = tuple(place - low for place, low in zip(torch[:3], box.corner))
        if box.has(*at):
            box.palette.append(state_of(torch))
            box.cells[box.number(*at)] = len(box.palette) - 1


def missing_lines(world, extent, around):
    """What has to be known of chunks that aren't there, in the box and about it."""
    inside = worlds.missing(world, extent)
    beside = [at for at in worlds.missing(world, around) if at not in inside]
    for where, places in (("of the box", inside), ("around the box", beside)):
        if places:
            x, z = places[0]
            told = f"1 chunk {where} isn't" if len(places) == 1 else f"{len(places):,} chunks {where} aren't"
            yield (f"{told} there or finished, from chunk {x} {z} (at {16 * x} {16 * z}) on. They count as nothing: no"
                   " ground, no light, no room. Walk there in the game first")
