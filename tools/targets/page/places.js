"use strict";

// Where a torch may stand or hang, and what a map shows of a cell, as ../../user/places.py has it.

/** How a torch hangs in each cell that can have one, by the cell's number: the first way that fits. */
function hangsOf(box, rows) {
  const [put, top, side] = ["put", "top", "side"].map((column) => COLUMNS.indexOf(column)), found = new Map();
  const states = box.palette.map((state) => rowOf(rows, state));
  const has = (x, y, z, column) => {
    const state = box.has(x, y, z) ? box.cells[box.number(x, y, z)] : NO_ENTRY;
    return state !== NO_ENTRY && states[state] !== null && states[state].columns[column];
  };
  for (let cell = 0; cell < box.cells.length; cell += 1) {
    const [x, y, z] = box.position(cell);
    if (!has(x, y, z, put)) continue;
    if (has(x, y - 1, z, top)) found.set(cell, "floor");
    else if (has(x, y, z + 1, side)) found.set(cell, "north");
    else if (has(x - 1, y, z, side)) found.set(cell, "east");
    else if (has(x, y, z - 1, side)) found.set(cell, "south");
    else if (has(x + 1, y, z, side)) found.set(cell, "west");
  }
  return found;
}

/** What the layers of a plan draw of a cell that has no new torch, by its row. */
function signOf(row) {
  if (row !== null && row.emission) return "*";
  return row !== null && row.columns[COLUMNS.indexOf("free")] ? "." : "#";
}
