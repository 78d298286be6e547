"use strict";

// Schematics as boxes: those of Litematica, and those of Sponge's versions 2 and 3, which WorldEdit writes. As
// ../../user/schematic_files.py reads them, with the same faults.

// Entries that have no part in the blocks.
const NO_BLOCKS = ["Entities", "TileEntities", "PendingBlockTicks", "PendingFluidTicks", "BlockEntities", "BiomeData",
  "BiomePalette", "Biomes"];

const isLitematic = (root) => root.has("Regions") && root.has("MinecraftDataVersion");

/** The entries of a schematic of Sponge, or null: version 3 has them one level below. */
function spongeOf(root) {
  const inner = root.has("Schematic") ? heldIn(root, "Schematic", COMPOUND) : root;
  return (inner.has("Blocks") && inner !== root) || inner.has("BlockData") ? inner : null;
}

/** Whether it is a schematic of old, whose blocks are numbers. */
const isNumbered = (root) => root.has("Materials") && root.has("Blocks");

function emptyBox(size, palette, dataVersion, name) {
  if (!isSmall(size)) {
    const limits = `${LONGEST_SIDE} a side or ${grouped(MOST_CELLS)} in all`;
    throw damaged(`it has ${size.join(" x ")} cells, more than ${limits}: save parts of it`);
  }
  return new Box(size, palette, new Int32Array(countOf(size)).fill(NO_ENTRY), { dataVersion, name });
}

function vectorIn(entries, name) {
  const found = needed(entries, name, COMPOUND);
  return ["x", "y", "z"].map((axis) => needed(found, axis, INT));
}

/** `count` numbers of `bits` bits each in longs, the first in the lowest bits; one may lie across two longs. */
function unpackedIndices(bytes, bits, count) {
  if (bytes.length * 8 < bits * count) throw damaged("a region has fewer block states than cells");
  const found = new Uint32Array(count), bit = (at) => (bytes[(at >> 6) * 8 + 7 - ((at >> 3) & 7)] >> (at & 7)) & 1;
  for (let index = 0; index < count; index += 1) {
    for (let at = 0; at < bits; at += 1) found[index] |= bit(index * bits + at) << at;
  }
  return found;
}

/** A region of a schematic of Litematica: its lowest corner, its sides, its states, and the longs of its cells. */
function regionOfLitematic(entries) {
  const at = vectorIn(entries, "Position"), told = vectorIn(entries, "Size");
  if (told.includes(0)) throw damaged("a region has no cells");
  // a side that is negative leads from the position downwards
  const low = at.map((place, axis) => place + Math.min(0, told[axis] + 1)), size = told.map(Math.abs);
  const palette = compoundsIn(entries, "BlockStatePalette").map(stateOfEntries);
  return { low, size, palette, data: needed(entries, "BlockStates", LONGS) };
}

/** The state of each cell of a region, by its number in the region's palette. */
function cellsOfRegion({ size, palette, data }) {
  const bits = Math.max(2, 32 - Math.clz32(Math.max(0, palette.length - 1)));
  const found = unpackedIndices(data, bits, countOf(size));
  const most = found.reduce((one, other) => Math.max(one, other), 0);
  if (most >= palette.length) throw damaged(`a region has state ${most} of a palette of ${palette.length}`);
  return found;
}

/** The box about all regions. Where two lie over each other the later counts; nothing is known between them. */
function readLitematic(root, name) {
  const told = [...needed(root, "Regions", COMPOUND).values()].filter(([kind]) => kind === COMPOUND);
  const regions = told.map(([, entries]) => regionOfLitematic(entries));
  if (regions.length === 0) throw damaged("it has no region");
  const least = (axis) => regions.reduce((low, region) => Math.min(low, region.low[axis]), Infinity);
  const most = (axis) => regions.reduce((high, { low, size }) => Math.max(high, low[axis] + size[axis]), -Infinity);
  const low = [0, 1, 2].map(least), size = [0, 1, 2].map((axis) => most(axis) - low[axis]);
  const box = emptyBox(size, [], heldIn(root, "MinecraftDataVersion", INT), name);
  for (const region of regions) {
    const first = box.palette.length, cells = cellsOfRegion(region), [wide, tall, deep] = region.size;
    const [left, bottom, back] = region.low.map((at, axis) => at - low[axis]);
    for (const state of region.palette) box.palette.push(state);
    for (let cell = 0; cell < cells.length; cell += 1) {
      const y = Math.floor(cell / (wide * deep)), z = Math.floor(cell / wide) % deep;
      box.cells[box.number(left + (cell % wide), bottom + y, back + z)] = first + cells[cell];
    }
  }
  return box;
}

/** `count` numbers of seven bits a byte, the lowest first. */
function varints(bytes, count) {
  const found = [];
  let number = 0, shift = 0;
  for (const byte of bytes) {
    if (byte & 127) number += (byte & 127) * 2 ** shift;
    shift += 7;
    if (byte > 127) continue;
    found.push(number);
    number = shift = 0;
  }
  if (found.length !== count || shift > 0) {
    throw damaged(`it has ${grouped(found.length)} block states for ${grouped(count)} cells`);
  }
  return found;
}

/** A block state of its text, as `minecraft:chest[facing=north]`. */
function stateOfText(text) {
  const found = /^([^[\]]+)(?:\[([^[\]]*)\])?$/.exec(text);
  const pairs = found ? (found[2] || "").split(",").filter((pair) => pair !== "") : [];
  if (found === null || !pairs.every((pair) => pair.includes("="))) {
    throw damaged(`its palette has '${text}', which is no block state`);
  }
  return [found[1], new Map(pairs.map((pair) => pair.split(/=(.*)/s).slice(0, 2)))];
}

/** The box of a schematic of Sponge. */
function readSponge(schematic, name) {
  const version = heldIn(schematic, "Version", INT);
  if (version !== 2 && version !== 3) {
    const told = version === null ? "None" : version;
    throw damaged(`it is a schematic of Sponge's version ${told}; versions 2 and 3 are read`);
  }
  const size = ["Width", "Height", "Length"].map((side) => needed(schematic, side, SHORT) & 0xffff);
  const blocks = version === 3 ? needed(schematic, "Blocks", COMPOUND) : schematic, names = new Map();
  for (const [text, [kind, index]] of needed(blocks, "Palette", COMPOUND)) {
    if (kind === INT) names.set(index, textOf(text));
  }
  const indices = [...names.keys()].sort((one, other) => one - other);
  const places = new Map(indices.map((index, at) => [index, at]));
  const palette = indices.map((index) => stateOfText(names.get(index)));
  const box = emptyBox(size, palette, heldIn(schematic, "DataVersion", INT), name);
  const found = varints(needed(blocks, version === 3 ? "Data" : "BlockData", BYTES), box.cells.length);
  if (!found.every((index) => places.has(index))) throw damaged("a cell has a state that its palette hasn't");
  box.cells.set(found.map((index) => places.get(index)));
  return box;
}
