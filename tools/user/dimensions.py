"""The dimensions of a world: what they are called, where their region files lie, and between which layers."""
import argparse
import os
import re

from versions import release

OVERWORLD, NETHER, END = "minecraft:overworld", "minecraft:the_nether", "minecraft:the_end"
SHORT = {"overworld": OVERWORLD, "nether": NETHER, "the_nether": NETHER, "end": END, "the_end": END}
NAME = re.compile(r"[a-z0-9_.-]+:[a-z0-9_.-]+(/[a-z0-9_.-]+)*")
# Where the game's own dimensions lie ("Java Edition level format") up to 1.21; a server's folder has one of them.
FOLDERS = {OVERWORLD: "region", NETHER: "DIM-1/region", END: "DIM1/region"}
# The lowest and the highest layer ("Altitude").
USUAL, TALL = (0, 255), (-64, 319)


def named(word):
    """A dimension by a word of the command line."""
    if word in SHORT:
        return SHORT[word]
    if not NAME.fullmatch(word) or ".." in word:
        raise argparse.ArgumentTypeError(f"{word!r} is no dimension: overworld, nether, end, or name:space")
    return word


def plain(dimension):
    """A dimension in the name of a folder: nothing of the Overworld."""
    return [] if dimension == OVERWORLD else [re.sub("[:/]", "_", dimension.split("minecraft:")[-1])]


def folders(dimension):
    """Where its region files may lie, first as it is since 26.1 and for dimensions of data packs."""
    space, _, name = dimension.partition(":")
    return [f"dimensions/{space}/{name}/region", *([FOLDERS[dimension]] if dimension in FOLDERS else [])]


def folder_of(world, dimension):
    """The folder of its region files, or None."""
    found = [os.path.join(world, *path.split("/")) for path in folders(dimension)]
    return next(filter(os.path.isdir, found), None)


def only_one(world):
    """The dimension of a folder that has but one of the game's own, as a server keeps them apart."""
    there = [dimension for dimension in FOLDERS if folder_of(world, dimension)]
    return there[0] if len(there) == 1 else OVERWORLD


def heights(dimension, data_version, chunks):
    """The lowest and the highest layer in which blocks can be; of dimensions of data packs, those that chunks have."""
    if dimension == OVERWORLD:
        return TALL if data_version >= release("1.18").data_version else USUAL
    layers = [height for chunk in chunks for height in chunk.sections]
    if dimension in FOLDERS or not layers:
        return USUAL
    return 16 * min(layers), 16 * max(layers) + 15
