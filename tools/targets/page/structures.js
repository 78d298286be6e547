"use strict";

// Boxes, and structure files as the game saves them: read as ../../user/structure_files.py does, and written as
// structures.py writes them.

const NO_ENTRY = -1, LONGEST_SIDE = 128, MOST_CELLS = 262_144;
const NO_STRUCTURE = ["nbt", "entities"]; // entries that have no part in the blocks

/** Blocks in a box. A cell's number is (y * Z + z) * X + x; a cell without an entry has NO_ENTRY. */
class Box {
  /** `made` has the numbers of cells that the planner reads as something else than what stands there. */
  constructor(size, palette, cells, { corner = null, dimension = null, dataVersion = null, name = "" } = {}) {
    Object.assign(this, { size, palette, cells, corner, dimension, dataVersion, name, made: new Set() });
  }

  number(x, y, z) {
    return (y * this.size[2] + z) * this.size[0] + x;
  }

  position(number) {
    const [wide, , deep] = this.size, row = Math.floor(number / wide);
    return [number % wide, Math.floor(row / deep), row % deep];
  }

  has(x, y, z) {
    return [x, y, z].every((at, axis) => at >= 0 && at < this.size[axis]);
  }

  /** The box of these sides at a position, with the states that it has. */
  part(low, size) {
    const cells = new Int32Array(countOf(size));
    for (let y = 0, to = 0; y < size[1]; y += 1) {
      for (let z = 0; z < size[2]; z += 1, to += size[0]) {
        const start = this.number(low[0], low[1] + y, low[2] + z);
        cells.set(this.cells.subarray(start, start + size[0]), to);
      }
    }
    const used = [...new Set(cells)].filter((cell) => cell !== NO_ENTRY).sort((one, other) => one - other);
    const places = new Map([[NO_ENTRY, NO_ENTRY], ...used.map((index, at) => [index, at])]);
    const corner = this.corner && this.corner.map((at, axis) => at + low[axis]);
    return new Box(size, used.map((index) => this.palette[index]), cells.map((cell) => places.get(cell)),
      { ...this, corner });
  }

  /** The block state there, or null where the box has no entry. */
  stateAt(x, y, z) {
    const index = this.cells[this.number(x, y, z)];
    return index === NO_ENTRY ? null : this.palette[index];
  }
}

const countOf = (size) => size[0] * size[1] * size[2];

/** Whether a box of these sides keeps the limits of the program. */
function isSmall(size) {
  return Math.min(...size) >= 0 && Math.max(...size) <= LONGEST_SIDE && countOf(size) <= MOST_CELLS;
}

/** The three numbers of a list. */
function three(entries, name) {
  const [kind, numbers] = needed(entries, name, LIST);
  if (kind !== INT || numbers.length !== 3) throw damaged(`its ${name} has the wrong type`);
  return numbers;
}

/** The box of a structure by its root. What the program refuses is a fault here too, but in other words. */
function structureOfRoot(root, name) {
  const size = three(root, "size");
  if (!isSmall(size)) throw damaged("its size is beyond the limits");
  const palette = compoundsIn(root, "palette").map(stateOfEntries);
  const cells = new Int32Array(countOf(size)).fill(NO_ENTRY);
  const box = new Box(size, palette, cells, { dataVersion: heldIn(root, "DataVersion", INT), name });
  for (const entry of compoundsIn(root, "blocks")) {
    const at = three(entry, "pos"), state = needed(entry, "state", INT);
    const isInside = at.every((place, axis) => place >= 0 && place < size[axis]);
    if (!isInside || state < 0 || state >= palette.length) {
      throw damaged("a block lies outside of the box or has no state");
    }
    cells[box.number(...at)] = state;
  }
  return box;
}

/** Writes NBT. */
class NbtWriter {
  constructor() {
    this.parts = [];
  }

  byte(number) {
    this.parts.push(Uint8Array.of(number));
  }

  short(number) {
    this.parts.push(Uint8Array.of(number >> 8, number));
  }

  number(number) {
    this.parts.push(Uint8Array.of(number >> 24, number >> 16, number >> 8, number));
  }

  wide(number) {
    const part = new Uint8Array(8);
    new DataView(part.buffer).setBigUint64(0, BigInt.asUintN(64, number));
    this.parts.push(part);
  }

  text(bytes) {
    this.short(bytes.length);
    this.parts.push(bytes);
  }

  name(kind, name) {
    this.byte(kind);
    this.text(utf8(name));
  }

  end() {
    this.byte(END);
  }

  ints(name, numbers) {
    this.name(LIST, name);
    this.byte(INT);
    this.number(numbers.length);
    for (const number of numbers) this.number(number);
  }

  /** The head of a list of `count` compounds; an empty list has the id 0. */
  compounds(name, count) {
    this.name(LIST, name);
    this.byte(count ? COMPOUND : END);
    this.number(count);
  }

  /** A block state, whose properties are left out where it has none. */
  state([name, props]) {
    this.name(TEXT, "Name");
    this.text(utf8(name));
    if (props.size > 0) {
      this.name(COMPOUND, "Properties");
      for (const [key, value] of props) {
        this.name(TEXT, key);
        this.text(utf8(value));
      }
      this.end();
    }
    this.end();
  }

  block(at, state) {
    this.ints("pos", at);
    this.integer("state", state);
    this.end();
  }

  integer(name, number) {
    this.name(INT, name);
    this.number(number);
  }

  long(name, number) {
    this.name(LONG, name);
    this.wide(BigInt(number));
  }

  longs(name, numbers) {
    this.name(LONGS, name);
    this.number(numbers.length);
    for (const number of numbers) this.wide(number);
  }

  string(name, text) {
    this.name(TEXT, name);
    this.text(modified(text));
  }

  file() {
    return joined(this.parts);
  }
}

/** A text in modified UTF-8: NUL is two bytes, and a character above U+FFFF two surrogates. */
function modified(text) {
  const bytes = [];
  for (let at = 0; at < text.length; at += 1) {
    const unit = text.charCodeAt(at);
    if (unit > 0x7ff) bytes.push(0xe0 | (unit >> 12), 0x80 | ((unit >> 6) & 0x3f), 0x80 | (unit & 0x3f));
    else if (unit > 0x7f || unit === 0) bytes.push(0xc0 | (unit >> 6), 0x80 | (unit & 0x3f));
    else bytes.push(unit);
  }
  return Uint8Array.from(bytes);
}

// An entry of the blocks, as NbtWriter.block writes it: 'pos', three numbers, 'state', a number and the end.
const ENTRY = (() => {
  const writer = new NbtWriter();
  writer.block([0, 0, 0], 0);
  return writer.file();
})();
const PLACES = [11, 15, 19], STATE = ENTRY.length - 5;

/** The bytes of all entries of a box, in the order of its cells; those without a state are left out. */
function entriesOf(box) {
  const count = box.cells.reduce((sum, cell) => sum + (cell !== NO_ENTRY), 0);
  const out = new Uint8Array(count * ENTRY.length), view = new DataView(out.buffer);
  let to = 0, cell = 0;
  for (let y = 0; y < box.size[1]; y += 1) {
    for (let z = 0; z < box.size[2]; z += 1) {
      for (let x = 0; x < box.size[0]; x += 1, cell += 1) {
        if (box.cells[cell] === NO_ENTRY) continue;
        out.set(ENTRY, to);
        [x, y, z].forEach((at, axis) => view.setInt32(to + PLACES[axis], at));
        view.setInt32(to + STATE, box.cells[cell]);
        to += ENTRY.length;
      }
    }
  }
  return { count, bytes: out };
}

/** The file of a box's blocks. */
function boxFile(box) {
  const { count, bytes } = entriesOf(box), out = new NbtWriter();
  out.name(COMPOUND, "");
  out.ints("size", box.size);
  out.compounds("palette", box.palette.length);
  for (const state of box.palette) out.state(state);
  out.compounds("blocks", count);
  out.parts.push(bytes);
  if (box.dataVersion) out.integer("DataVersion", box.dataVersion);
  out.end();
  return out.file();
}
