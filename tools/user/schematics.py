"""The torches alone as files: a schematic of Litematica, and a structure for the game."""
import nbt_writer
import torches
import versions
from nbt_writer import COMPOUND, END, LIST

# Litematica's format as its own files have it (version 6, of 1.18 to 1.20.4; later ones read it).
VERSION, SUBVERSION = 6, 1
NAME_LENGTH = 100
AIR = torches.AIR


def packed(indices, bits):
    """Numbers of `bits` bits each in longs, the first in the lowest bits; one may lie across two longs."""
    whole, shift, longs = 0, 0, []
    for index in indices:
        whole |= index << shift
        shift += bits
        while shift >= 64:
            longs.append(whole & (1 << 64) - 1)
            whole, shift = whole >> 64, shift - 64
    return longs + [whole] * (shift > 0)


def states_of(plan):
    """The block states of the torches, in the order of their first, without repeats."""
    return list({torches.argument(state): state for state in map(torches.state_of, plan.torches)}.values())


def data_version(box):
    """The box's own, or that of the oldest release that data packs are for: torches are the same since."""
    return box.data_version or versions.release("1.18").data_version


class Writer(nbt_writer.Writer):
    """Writes NBT as Litematica lays it out."""

    def compound(self, name):
        self.name(COMPOUND, name)

    def vector(self, name, numbers):
        self.compound(name)
        for axis, number in zip("xyz", numbers):
            self.integer(axis, number)
        self.end()

    def empty_list(self, name):
        self.name(LIST, name)
        self.put(bytes([END]), "id")
        self.count(0)

    def metadata(self, name, count, size):
        """What Litematica's list of schematics shows; no times, so that a plan gives one file."""
        self.compound("Metadata")
        self.string("Name", name)
        self.string("Author", "torchplan")
        self.string("Description", "Place it with its origin at the lowest north-west corner of the planned box.")
        self.integer("RegionCount", 1)
        self.integer("TotalBlocks", count)
        self.integer("TotalVolume", size[0] * size[1] * size[2])
        self.long("TimeCreated", 0)
        self.long("TimeModified", 0)
        self.vector("EnclosingSize", size)
        self.end()

    def region(self, name, plan):
        """The torches in the least box about them. Its position is told from the planned box's corner."""
        low, size = torches.bounds(plan.torches)
        palette = [AIR, *states_of(plan)]
        cells = [0] * (size[0] * size[1] * size[2])
        for torch in plan.torches:
            x, y, z = [at - least for at, least in zip(torch, low)]
            cells[(y * size[2] + z) * size[0] + x] = palette.index(torches.state_of(torch))
        self.compound(name)
        self.vector("Position", low)
        self.vector("Size", size)
        self.compounds("BlockStatePalette", len(palette))
        for state in palette:
            self.state(*state)
        self.longs("BlockStates", packed(cells, max(2, (len(palette) - 1).bit_length())))
        for empty in ("Entities", "TileEntities", "PendingBlockTicks", "PendingFluidTicks"):
            self.empty_list(empty)
        self.end()


def litematic(box, plan):
    """The bytes of torches.litematic."""
    name = (box.name or "cave")[:NAME_LENGTH]
    out = Writer()
    out.compound("")
    out.integer("MinecraftDataVersion", data_version(box))
    out.integer("Version", VERSION)
    out.integer("SubVersion", SUBVERSION)
    out.metadata(f"Torches for {name}", len(plan.torches), torches.bounds(plan.torches)[1])
    out.compound("Regions")
    out.region("torches", plan)
    out.end()
    out.end()
    return nbt_writer.zipped(out.file())


def structure(box, plan):
    """The bytes of torches.nbt (Minecraft Wiki, "Structure file"): without air, so that it changes nothing else."""
    low, size = torches.bounds(plan.torches)
    states = states_of(plan)
    out = Writer()
    out.compound("")
    out.ints("size", size)
    out.empty_list("entities")
    out.compounds("blocks", len(plan.torches))
    for torch in plan.torches:
        out.block([at - least for at, least in zip(torch, low)], states.index(torches.state_of(torch)))
    out.compounds("palette", len(states))
    for state in states:
        out.state(*state)
    out.integer("DataVersion", data_version(box))
    out.end()
    return nbt_writer.zipped(out.file())
