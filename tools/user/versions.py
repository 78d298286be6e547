"""The releases of Java Edition: the data version that their files carry, and the format of their data packs."""
from collections import namedtuple

# A release; its data version (Minecraft Wiki, "Data version"), and the format of its data packs without the minor
# number that formats have since 1.21.9 ("Pack format").
Release = namedtuple("Release", "name data_version pack_format")

RELEASES = [
    Release("1.16", 2566, 5),
    Release("1.16.1", 2567, 5),
    Release("1.16.2", 2578, 6),
    Release("1.16.3", 2580, 6),
    Release("1.16.4", 2584, 6),
    Release("1.16.5", 2586, 6),
    Release("1.17", 2724, 7),
    Release("1.17.1", 2730, 7),
    Release("1.18", 2860, 8),
    Release("1.18.1", 2865, 8),
    Release("1.18.2", 2975, 9),
    Release("1.19", 3105, 10),
    Release("1.19.1", 3117, 10),
    Release("1.19.2", 3120, 10),
    Release("1.19.3", 3218, 10),
    Release("1.19.4", 3337, 12),
    Release("1.20", 3463, 15),
    Release("1.20.1", 3465, 15),
    Release("1.20.2", 3578, 18),
    Release("1.20.3", 3698, 26),
    Release("1.20.4", 3700, 26),
    Release("1.20.5", 3837, 41),
    Release("1.20.6", 3839, 41),
    Release("1.21", 3953, 48),
    Release("1.21.1", 3955, 48),
    Release("1.21.2", 4080, 57),
    Release("1.21.3", 4082, 57),
    Release("1.21.4", 4189, 61),
    Release("1.21.5", 4325, 71),
    Release("1.21.6", 4435, 80),
    Release("1.21.7", 4438, 81),
    Release("1.21.8", 4440, 81),
    Release("1.21.9", 4554, 88),
    Release("1.21.10", 4556, 88),
    Release("1.21.11", 4671, 94),
]

LATEST = RELEASES[-1]

# The blocks that got another name: the first release with the new one, the old name, the new one.
RENAMED = [
    ("1.17", "minecraft:grass_path", "minecraft:dirt_path"),
    ("1.20.3", "minecraft:grass", "minecraft:short_grass"),
    ("1.21.9", "minecraft:chain", "minecraft:iron_chain"),
]


def release(name):
    """The release of that name."""
    return next(release for release in RELEASES if release.name == name)


def release_of(data_version):
    """The latest release whose data version isn't above this one; None where all are, or where it is None."""
    if data_version is None:
        return None
    found = [release for release in RELEASES if release.data_version <= data_version]
    return found[-1] if found else None


def name_in(data_version, name):
    """The name of a block in the game of that data version, whichever of its names it is told by."""
    for since, old, new in RENAMED:
        if name in (old, new):
            return new if data_version >= release(since).data_version else old
    return name
