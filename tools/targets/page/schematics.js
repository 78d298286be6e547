"use strict";

// The torches alone as files: a schematic of Litematica, and a structure for the game, as ../../user/schematics.py
// makes them.

const LITEMATIC_VERSION = 6, LITEMATIC_SUBVERSION = 1, NAME_LENGTH = 100;

/** Numbers of `bits` bits each in longs, the first in the lowest bits; one may lie across two longs. */
function packedLongs(indices, bits) {
  const longs = [];
  let whole = 0n, shift = 0;
  for (const index of indices) {
    whole |= BigInt(index) << BigInt(shift);
    shift += bits;
    while (shift >= 64) {
      longs.push(BigInt.asUintN(64, whole));
      whole >>= 64n;
      shift -= 64;
    }
  }
  return shift > 0 ? [...longs, whole] : longs;
}

/** The block states of the torches, in the order of their first, without repeats. */
function statesOfPlan(plan) {
  return [...new Map(plan.torches.map(stateOfTorch).map((state) => [argumentOf(state), state])).values()];
}

const versionOf = (box) => box.dataVersion || release("1.18").dataVersion;
const indexOfState = (states, state) => states.findIndex((one) => argumentOf(one) === argumentOf(state));

/** Writes NBT as Litematica lays it out. */
class LitematicWriter extends NbtWriter {
  compound(name) {
    this.name(COMPOUND, name);
  }

  vector(name, numbers) {
    this.compound(name);
    numbers.forEach((number, axis) => this.integer("xyz"[axis], number));
    this.end();
  }

  emptyList(name) {
    this.name(LIST, name);
    this.byte(END);
    this.number(0);
  }

  metadata(name, count, size) {
    this.compound("Metadata");
    this.string("Name", name);
    this.string("Author", "torchplan");
    this.string("Description", "Place it with its origin at the lowest north-west corner of the planned box.");
    this.integer("RegionCount", 1);
    this.integer("TotalBlocks", count);
    this.integer("TotalVolume", countOf(size));
    this.long("TimeCreated", 0);
    this.long("TimeModified", 0);
    this.vector("EnclosingSize", size);
    this.end();
  }

  region(name, plan) {
    const [low, size] = boundsOf(plan.torches), palette = [AIR, ...statesOfPlan(plan)];
    const cells = new Uint8Array(countOf(size));
    for (const torch of plan.torches) {
      const [x, y, z] = placeOfTorch(torch).map((at, axis) => at - low[axis]);
      cells[(y * size[2] + z) * size[0] + x] = indexOfState(palette, stateOfTorch(torch));
    }
    this.compound(name);
    this.vector("Position", low);
    this.vector("Size", size);
    this.compounds("BlockStatePalette", palette.length);
    for (const state of palette) this.state(state);
    this.longs("BlockStates", packedLongs(cells, Math.max(2, 32 - Math.clz32(palette.length - 1))));
    for (const empty of ["Entities", "TileEntities", "PendingBlockTicks", "PendingFluidTicks"]) this.emptyList(empty);
    this.end();
  }
}

/** The bytes of NAME-torches.litematic, before they are packed. */
function litematicOf(box, plan) {
  const name = Array.from(box.name || "cave").slice(0, NAME_LENGTH).join(""), out = new LitematicWriter();
  out.compound("");
  out.integer("MinecraftDataVersion", versionOf(box));
  out.integer("Version", LITEMATIC_VERSION);
  out.integer("SubVersion", LITEMATIC_SUBVERSION);
  out.metadata(`Torches for ${name}`, plan.torches.length, boundsOf(plan.torches)[1]);
  out.compound("Regions");
  out.region("torches", plan);
  out.end();
  out.end();
  return out.file();
}

/** The bytes of NAME-torches.nbt, before they are packed: without air, so that it changes nothing else. */
function structureOf(box, plan) {
  const [low, size] = boundsOf(plan.torches), states = statesOfPlan(plan), out = new LitematicWriter();
  out.compound("");
  out.ints("size", size);
  out.emptyList("entities");
  out.compounds("blocks", plan.torches.length);
  for (const torch of plan.torches) {
    out.block(placeOfTorch(torch).map((at, axis) => at - low[axis]), indexOfState(states, stateOfTorch(torch)));
  }
  out.compounds("palette", states.length);
  for (const state of states) out.state(state);
  out.integer("DataVersion", versionOf(box));
  out.end();
  return out.file();
}
