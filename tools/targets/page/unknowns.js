"use strict";

// Blocks that no table has: their names, and a table that has them, as ../../user/unknowns.py writes it.

/** The names of the blocks of a box that no row fits, each once, in the order of the palette. */
function unknownNames(box, rows) {
  const used = new Set(box.cells);
  const unfit = box.palette.filter((state, index) => used.has(index) && rowOf(rows, state) === null);
  return [...new Set(unfit.map(([name]) => name))];
}

/** The text of a table with more rows: behind its tables [[row]], or first in its list of rows. */
function withRows(text, rows) {
  const array = hasRowTables(text) ? null : /^[ \t]*row[ \t]*=[ \t]*\[/m.exec(text);
  if (array === null) return `${text}\n${rows.map(rowText).join("")}`;
  const end = array.index + array[0].length, more = rows.map((row) => `\n    { ${rowEntries(row).join(", ")} },`);
  return text.slice(0, end) + more.join("") + text.slice(end);
}

/** The text of a table that has these names, and what one's own table has already. */
function tableForUnknown(names, own) {
  const known = names.filter((name) => /^[a-z0-9_.-]+:[a-z0-9_./-]+$/.test(name));
  const columns = flagsOf("stand top side");
  const rows = known.map((name) => ({ name, when: new Map(), opacity: 15, emission: 0, columns }));
  return `${DATA.unknown}\n${withRows(own || "", rows)}`;
}
