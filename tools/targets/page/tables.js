"use strict";

// Releases of the game, and the rows of block tables: as versions.py, tables.py and toml_rows.py of ../../user have
// them, and the shipped rows, as docs/FORMATS.md lists them. Their data comes from there when the page is packed (DATA).

const RELEASES = DATA.releases.map(([name, dataVersion, packFormat]) => ({ name, dataVersion, packFormat }));
const LATEST = RELEASES[RELEASES.length - 1];
const release = (name) => RELEASES.find((one) => one.name === name);

/** The latest release whose data version isn't above this one; null where all are, or where it is null. */
function releaseOf(dataVersion) {
  if (dataVersion === null) return null;
  return RELEASES.filter((one) => one.dataVersion <= dataVersion).pop() || null;
}

/** The name of a block in the game of that data version, whichever of its names it is told by. */
function nameIn(dataVersion, name) {
  for (const [since, old, renamed] of DATA.renamed) {
    if (name === old || name === renamed) return dataVersion >= release(since).dataVersion ? renamed : old;
  }
  return name;
}

const OLD_TABLE = "vanilla-1.18.toml", NEW_TABLE = "vanilla-1.21.toml", STEADY = "\n    # steady: ";

/** The vanilla table for the game of that data version, or for one that isn't known (null). */
function vanillaName(dataVersion) {
  const isOld = dataVersion !== null && dataVersion >= release("1.17").dataVersion &&
    dataVersion < release("1.19").dataVersion;
  return isOld ? OLD_TABLE : NEW_TABLE;
}

/** The rule of the game that saved the cave, unless one is told. */
function ruleFor(told, dataVersion) {
  return told || (dataVersion !== null && dataVersion < release("1.18").dataVersion ? "1.17" : "1.18");
}

/** A table's text as it is planned by: with lights that go out while their block stays, or without. */
const withSteady = (text, isSteady) => (isSteady ? text.replaceAll(STEADY, "\n    ") : text);

/** Whether a table has its rows as tables [[row]]. */
const hasRowTables = (text) => /^[ \t]*\[\[[ \t]*row[ \t]*\]\]/m.test(text);

/** The table for a game's data version: what it is called, and its text. Rows of one's own that are tables [[row]]
 * stand before the vanilla rows; an array of rows, as the vanilla tables have it, stands alone. */
function chosenTable(dataVersion, own = null, isSteady = false) {
  const name = vanillaName(dataVersion), steady = " with its steady lights";
  const text = withSteady(DATA.tables[name], isSteady);
  if (own === null) return { name: isSteady ? name + steady : name, text };
  if (!hasRowTables(own.text)) {
    return { name: isSteady ? own.name + steady : own.name, text: withSteady(own.text, isSteady) };
  }
  const told = `${own.name}, then ${name}${isSteady ? ` with its steady lights` : ""}`;
  return { name: told, text: `${own.text}\n${readRows(text).map(rowText).join("")}` };
}

const COLUMNS = DATA.columns;
const flagsOf = (columns) => COLUMNS.map((column) => columns.split(" ").includes(column));

/** The rows that the program has in itself. */
const SHIPPED_ROWS = DATA.shipped.flatMap(([names, opacity, emission, columns]) =>
  names.split(/\s+/).map((told) => {
    const [, name, key, value] = /^([^[]*)(?:\[(.*)=(.*)\])?$/.exec(told);
    const when = new Map(key === undefined ? [] : [[key, value]]);
    return { name: `minecraft:${name}`, when, opacity, emission, columns: flagsOf(columns) };
  }));
const TORCH_EMISSION = 14;

/** The row of a block state: of a table's rows, then of the shipped ones, then of the table's wildcards; or null. */
function rowOf(rows, [name, props]) {
  const fits = (row) => [...row.when].every(([key, value]) => props.get(key) === value);
  const all = [...rows, ...SHIPPED_ROWS];
  return all.find((row) => row.name === name && row.name !== "*" && fits(row)) ||
    rows.find((row) => row.name === "*" && fits(row)) || null;
}

// A comment or space, a line feed, a text in either quotes, a word or number, a sign: the part of TOML that is read
// here, in which the tables of examples/tables and short tables are written.
const PIECE = /[ \t\r]+|#[^\n]*|(\n)|("(?:[^"\\\n]|\\["\\])*"(?!"))|('[^'\n]*'(?!'))|([\w.+-]+)|([[\]{}=,])/uy;
const END_OF_TEXT = "";

/** The text isn't in the part of TOML that is read here. */
class Unread extends Error {}

/** The pieces of a text, to be taken from the front. A text stands with its quotes. */
class Pieces {
  constructor(text) {
    this.all = [];
    this.at = 0;
    for (PIECE.lastIndex = 0; PIECE.lastIndex < text.length; ) {
      const at = PIECE.lastIndex, found = PIECE.exec(text);
      if (found === null) throw new Unread(`at ${at}`);
      const piece = found.slice(1).find((one) => one !== undefined);
      if (piece !== undefined) this.all.push(piece);
    }
  }

  get first() {
    return this.at < this.all.length ? this.all[this.at] : END_OF_TEXT;
  }

  next() {
    const piece = this.first;
    this.at += 1;
    return piece;
  }

  /** Whether the next piece is this one, which is then taken. */
  has(piece) {
    if (this.first !== piece || this.at >= this.all.length) return false;
    this.at += 1;
    return true;
  }

  need(piece) {
    if (!this.has(piece)) throw new Unread(`${this.first} stands for ${piece}`);
  }

  lines() {
    while (this.has("\n"));
  }
}

function unquoted(piece) {
  return piece[0] === '"' ? piece.slice(1, -1).replace(/\\(.)/g, "$1") : piece.slice(1, -1);
}

function keyOf(pieces) {
  const piece = pieces.next();
  if (/^["']/.test(piece)) return unquoted(piece);
  if (!/^[\w-]+$/.test(piece)) throw new Unread(`${piece} is no key`);
  return piece;
}

function valueOf(pieces) {
  const piece = pieces.next();
  if (piece === "[") return arrayOf(pieces);
  if (piece === "{") return inlineOf(pieces);
  if (/^["']/.test(piece)) return unquoted(piece);
  if (piece === "true" || piece === "false") return piece === "true";
  if (/^(0|[1-9][0-9]*)$/.test(piece)) return Number(piece);
  throw new Unread(`${piece} is no value`);
}

function arrayOf(pieces) {
  const found = [];
  pieces.lines();
  while (!pieces.has("]")) {
    found.push(valueOf(pieces));
    pieces.lines();
    if (!pieces.has(",")) {
      pieces.need("]");
      break;
    }
    pieces.lines();
  }
  return found;
}

function inlineOf(pieces) {
  const found = new Map();
  if (pieces.has("}")) return found;
  for (;;) {
    put(found, pieces);
    if (pieces.has("}")) return found;
    pieces.need(",");
  }
}

/** Puts in what 'key = value' says. */
function put(entries, pieces) {
  const key = keyOf(pieces);
  pieces.need("=");
  if (entries.has(key)) throw new Unread(`${key} stands twice`);
  entries.set(key, valueOf(pieces));
}

/** The entries of a table: its key `row`, or its tables [[row]]. */
function documentOf(text) {
  const pieces = new Pieces(text), top = new Map();
  let entries = top;
  while (pieces.at < pieces.all.length) {
    if (pieces.has("\n")) continue;
    if (pieces.has("[")) {
      for (const piece of ["[", "row", "]", "]"]) pieces.need(piece);
      entries = new Map();
      if (!top.has("row")) top.set("row", []);
      top.get("row").push(entries);
    } else put(entries, pieces);
    if (pieces.at < pieces.all.length) pieces.need("\n");
  }
  return top;
}

/** The rows of a table that the program takes. Throws where they can't be read here. */
function readRows(text) {
  return (documentOf(text.replace(/^\ufeff/, "")).get("row") || []).map((row) => {
    const isRow = row instanceof Map && row.has("name") && row.has("opacity");
    if (!isRow) throw new Unread("a row has no name or no opacity");
    const told = (key, otherwise) => (row.has(key) ? row.get(key) : otherwise);
    return {
      name: row.get("name"), when: told("when", new Map()), opacity: row.get("opacity"), emission: told("emission", 0),
      columns: COLUMNS.map((column) => told(column, false)),
    };
  });
}

/** What a table says of a row, key by key. */
function rowEntries(row) {
  const when = [...row.when].map(([key, value]) => `"${key}" = "${value}"`).join(", ");
  const entries = [`name = "${row.name}"`, `opacity = ${row.opacity}`];
  if (when) entries.push(`when = { ${when} }`);
  if (row.emission) entries.push(`emission = ${row.emission}`);
  COLUMNS.forEach((column, at) => row.columns[at] && entries.push(`${column} = true`));
  return entries;
}

/** A row as a table [[row]]. */
const rowText = (row) => ["[[row]]", ...rowEntries(row)].map((line) => `${line}\n`).join("");

/** The rows of a table; null where they can't be read here. */
function rowsOfTable(text) {
  try {
    return readRows(text);
  } catch {
    return null;
  }
}
