"use strict";

// Reading NBT (Minecraft Wiki, "NBT format"): as ../../user/nbt_reader.py does, with the same faults.
//
// A value is a pair of its kind and what it holds: a number; a text's bytes as letters of one byte; an array's bytes; a
// compound's Map, values by names; a list's pair of its items' kind and the items, which are held without their kind.

const END = 0, BYTE = 1, SHORT = 2, INT = 3, LONG = 4, FLOAT = 5, DOUBLE = 6;
const BYTES = 7, TEXT = 8, LIST = 9, COMPOUND = 10, INTS = 11, LONGS = 12;
const DEEPEST = 512, MOST_KEPT = 2_000_000;
const WIDTHS = { [BYTE]: 1, [SHORT]: 2, [INT]: 4, [LONG]: 8, [FLOAT]: 4, [DOUBLE]: 8 };
const ITEMS = { [BYTES]: 1, [INTS]: 4, [LONGS]: 8 };
const NUMBERS = {
  [BYTE]: "getInt8", [SHORT]: "getInt16", [INT]: "getInt32", [LONG]: "getBigInt64", [FLOAT]: "getFloat32",
  [DOUBLE]: "getFloat64",
};

/** The bytes of a text as letters of one byte each. */
function letters(bytes) {
  let text = "";
  for (let at = 0; at < bytes.length; at += 0x8000) text += String.fromCharCode(...bytes.subarray(at, at + 0x8000));
  return text;
}

class NbtReader {
  /** Entries of the names in `leftOut` are read over and not kept. */
  constructor(data, leftOut = new Set()) {
    Object.assign(this, { data, leftOut, at: 0, kept: 0 });
    this.view = new DataView(data.buffer, data.byteOffset, data.length);
  }

  /** Where the next `count` bytes begin, all of which are there. */
  take(count) {
    const at = this.at;
    if (this.data.length - at < count) throw damaged(`nbt: truncated at ${this.data.length}`);
    this.at = at + count;
    return at;
  }

  part(count) {
    const at = this.take(count);
    return this.data.subarray(at, at + count);
  }

  text() {
    return letters(this.part(this.view.getUint16(this.take(2))));
  }

  kind() {
    const at = this.take(1), kind = this.data[at];
    if (kind > LONGS) throw damaged(`nbt: bad tag ${kind} at ${at}`);
    return kind;
  }

  array(width) {
    const at = this.take(4), count = this.view.getInt32(at);
    if (count < 0) throw damaged(`nbt: bad length at ${at}`);
    return this.part(count * width);
  }

  /** A number, a text or an array. */
  simple(kind) {
    if (kind in WIDTHS) return this.view[NUMBERS[kind]](this.take(WIDTHS[kind]));
    return kind === TEXT ? this.text() : this.array(ITEMS[kind]);
  }

  /** The numbers of a list. */
  numbers(kind, count) {
    const at = this.take(count * WIDTHS[kind]), read = NUMBERS[kind];
    return Array.from({ length: count }, (_, index) => this.view[read](at + index * WIDTHS[kind]));
  }

  /** The list or compound that begins here: what it holds, its items' kind, and how many are to come. */
  opened(kind, depth, isKept) {
    if (depth > DEEPEST) throw damaged(`nbt: too deep at ${this.at}`);
    this.kept += isKept;
    if (this.kept > MOST_KEPT) throw damaged(`nbt: more than ${grouped(MOST_KEPT)} lists and compounds`);
    if (kind === COMPOUND) return { holds: new Map(), kind: null, left: 0, isKept };
    kind = this.kind();
    const at = this.take(4), count = this.view.getInt32(at);
    if (kind === END && count > 0) throw damaged(`nbt: bad length at ${at}`);
    if (count <= 0) return { holds: [], kind, left: 0, isKept };
    if (kind in WIDTHS) return { holds: this.numbers(kind, count), kind, left: 0, isKept };
    return { holds: [], kind, left: count, isKept };
  }

  /** Reads items of a list; the list or compound that begins among them, or null at its end. */
  items(one, depth) {
    if (one.kind !== LIST && one.kind !== COMPOUND) {
      for (let left = one.left; left > 0; left -= 1) {
        const item = this.simple(one.kind);
        if (one.isKept) one.holds.push(item);
      }
      return null;
    }
    if (one.left === 0) return null;
    one.left -= 1;
    const inner = this.opened(one.kind, depth, one.isKept);
    if (one.isKept) one.holds.push(held(one.kind, inner));
    return inner;
  }

  /** Reads entries of a compound; the list or compound that begins among them, or null at its end. */
  entries(one, depth) {
    for (;;) {
      const kind = this.kind();
      if (kind === END) return null;
      const name = this.text(), isKept = one.isKept && !this.leftOut.has(name);
      if (kind !== LIST && kind !== COMPOUND) {
        const value = this.simple(kind);
        if (isKept) one.holds.set(name, [kind, value]);
        continue;
      }
      const inner = this.opened(kind, depth, isKept);
      if (isKept) one.holds.set(name, [kind, held(kind, inner)]);
      if (kind === COMPOUND || inner.left > 0) return inner;
    }
  }

  /** The entries of the outermost compound, whose name is read. */
  compound() {
    const root = this.opened(COMPOUND, 1, true), path = [root];
    while (path.length > 0) {
      const one = path[path.length - 1], depth = path.length + 1;
      const inner = one.kind === null ? this.entries(one, depth) : this.items(one, depth);
      if (inner === null) path.pop();
      else path.push(inner);
    }
    return root.holds;
  }
}

/** What stands for a list or compound in what it is part of. */
const held = (kind, inner) => (kind === COMPOUND ? inner.holds : [inner.kind, inner.holds]);

/** The entries of the root; what stands behind it isn't looked at. */
function rootOf(data, leftOut) {
  if (isPacked(data)) throw damaged("nbt: compressed");
  const reader = new NbtReader(data, leftOut);
  if (data[reader.take(1)] !== COMPOUND) throw damaged("nbt: root is no compound");
  reader.text();
  return reader.compound();
}

/** The units of UTF-16 of a text in modified UTF-8; null where the bytes are none. */
function unitsOf(text) {
  const units = [];
  for (let at = 0; at < text.length; ) {
    const byte = text.charCodeAt(at), more = byte < 0x80 ? 0 : byte < 0xc0 ? 9 : byte < 0xe0 ? 1 : byte < 0xf0 ? 2 : 3;
    let code = more === 0 ? byte : byte & (0x3f >> more);
    if (more > 3 || at + more >= text.length || byte > 0xf4) return null;
    for (let index = 1; index <= more; index += 1) {
      const next = text.charCodeAt(at + index);
      if ((next & 0xc0) !== 0x80) return null;
      code = code * 64 + (next & 0x3f);
    }
    const isNul = byte === 0xc0 && code === 0; // two bytes that stand for NUL
    if ((code < [0, 0x80, 0x800, 0x10000][more] && !isNul) || code > 0x10ffff) return null;
    if (code > 0xffff) units.push(0xd800 + ((code - 0x10000) >> 10), 0xdc00 + (code & 0x3ff));
    else units.push(code);
    at += more + 1;
  }
  return units;
}

/** A text of its bytes, which are modified UTF-8: NUL has two bytes, and a character above U+FFFF is a pair of
 * surrogates. What is none stands as U+FFFD. */
function textOf(text) {
  const units = unitsOf(text);
  if (units === null) {
    const bytes = Uint8Array.from(text, (letter) => letter.charCodeAt(0));
    return new TextDecoder("utf-8", { ignoreBOM: true }).decode(bytes);
  }
  let found = "";
  for (let at = 0; at < units.length; at += 1) {
    const isPair = (units[at] & 0xfc00) === 0xd800 && (units[at + 1] & 0xfc00) === 0xdc00;
    if (isPair) found += String.fromCharCode(units[at], units[(at += 1)]);
    else found += (units[at] & 0xf800) === 0xd800 ? "\ufffd" : String.fromCharCode(units[at]);
  }
  return found;
}

/** What the entry of that name holds, or null where there is none; one of another kind is a fault. */
function heldIn(entries, name, kind) {
  const found = entries.get(name);
  if (found && found[0] !== kind) throw damaged(`its ${name} has the wrong type`);
  return found ? found[1] : null;
}

/** What the entry of that name holds, which has to be there. */
function needed(entries, name, kind) {
  const found = heldIn(entries, name, kind);
  if (found === null) throw damaged(`it has no ${name}`);
  return found;
}

/** The compounds of a list; none where there is no such list. */
function compoundsIn(entries, name) {
  const [kind, items] = heldIn(entries, name, LIST) || [COMPOUND, []];
  if (items.length > 0 && kind !== COMPOUND) throw damaged(`its ${name} has the wrong type`);
  return items;
}

/** The block state of a palette's entry: its name, and its properties by names. One that is no text doesn't count. */
function stateOfEntries(entries) {
  const [kind, found] = entries.get("Properties") || [COMPOUND, new Map()];
  const props = new Map();
  for (const [key, [one, value]] of kind === COMPOUND ? found : []) {
    if (one === TEXT) props.set(textOf(key), textOf(value));
  }
  return [textOf(needed(entries, "Name", TEXT)), props];
}
