"use strict";

// The blocks of a chunk, as the versions from 1.16 on save them (Minecraft Wiki, "Chunk format"): read as
// ../../user/chunks.py does, with the same faults.

const CHUNK_SIDE = 16, SECTION_CELLS = CHUNK_SIDE ** 3, LEAST_BITS = 4;
const FULL_STATUSES = ["full", "minecraft:full"];
// What has no part in the blocks.
const NO_CHUNK_PART = new Set(DATA.chunks.leftOut);

/** The index of each cell into a palette of `count` states, of a section's longs. An entry has as many bits as the
 * palette needs, at least four; the first stands in the lowest bits of the first long, and none crosses a long. */
function indicesOf(longs, count) {
  const bits = Math.max(LEAST_BITS, 32 - Math.clz32(count - 1)), each = Math.floor(64 / bits);
  const due = Math.ceil(SECTION_CELLS / each), mask = 2 ** bits - 1;
  if (longs.length !== 8 * due) {
    throw damaged(`a section has ${Math.floor(longs.length / 8)} longs for a palette of ${count}, not ${due}`);
  }
  const view = new DataView(longs.buffer, longs.byteOffset, longs.length), found = new Uint32Array(SECTION_CELLS);
  let most = 0;
  for (let cell = 0; cell < SECTION_CELLS; cell += 1) {
    const at = Math.floor(cell / each) * 8, shift = (cell % each) * bits, low = view.getUint32(at + 4);
    const high = view.getUint32(at);
    const index = shift >= 32 ? high >>> (shift - 32) : shift === 0 ? low : (low >>> shift) | (high << (32 - shift));
    found[cell] = index & mask;
    most = Math.max(most, found[cell]);
  }
  if (most >= count) throw damaged(`a section has state ${most} of a palette of ${count}`);
  return found;
}

/** A chunk's blocks by sections of 16 x 16 x 16, each told by its height over 16; none before it is whole. Also the version
 * of the game's data that saved it, how far the game is with it, and whether it has finished it. */
class Chunk {
  constructor(data, x, z) {
    const root = rootOf(data, NO_CHUNK_PART), inner = heldIn(root, "DataVersion", INT);
    this.dataVersion = inner || 0;
    if (this.dataVersion < DATA.chunks.earliest) {
      const how = "have the game optimise the world";
      throw damaged(`data version ${this.dataVersion} is older than 1.16's: ${how}`);
    }
    const old = heldIn(root, "Level", COMPOUND), level = old && old.size > 0 ? old : root;
    const told = [needed(level, "xPos", INT), needed(level, "zPos", INT)];
    if (told[0] !== x || told[1] !== z) throw damaged(`it says that it is chunk ${told.join(" ")}`);
    this.status = textOf(needed(level, "Status", TEXT));
    this.isWhole = FULL_STATUSES.includes(this.status);
    const sections = this.isWhole ? compoundsIn(level, "sections") : [];
    const all = sections.length > 0 || !this.isWhole ? sections : compoundsIn(level, "Sections");
    this.sections = new Map(all.map((section) => [Chunk.heightOf(section), section]));
  }

  static heightOf(section) {
    const [kind, height] = section.get("Y") || [null, null];
    if (kind !== BYTE && kind !== INT) throw damaged("a section has no Y");
    return height;
  }

  /** The palette of a section and the index of each cell into it, by y, then z, then x; null where the section has no
   * blocks. */
  section(height) {
    const section = this.sections.get(height) || new Map(), inner = heldIn(section, "block_states", COMPOUND);
    const isOld = inner === null, states = isOld ? section : inner;
    const longs = heldIn(states, isOld ? "BlockStates" : "data", LONGS);
    const palette = compoundsIn(states, isOld ? "Palette" : "palette").map(stateOfEntries);
    if (palette.length > 0 && longs !== null) return { palette, indices: indicesOf(longs, palette.length) };
    if (palette.length === 1) return { palette, indices: new Uint32Array(SECTION_CELLS) };
    if (palette.length > 0 || longs !== null || !isOld) {
      throw damaged(`a section has a palette of ${palette.length}, and ${longs === null ? "no" : "some"} blocks`);
    }
    return null;
  }
}
