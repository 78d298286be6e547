"use strict";

// Cells in which a mob could spawn and that no torch can light, as ../../user/slabs.py has them: the rest is planned as
// if a slab lay in the lower half of each. It counts as no room, and light doesn't pass it.

const SLAB = "torchplan:slab", UNLIGHTABLE = /^torchplan: unlightable (-?\d+) (-?\d+) (-?\d+)$/;
const SLAB_ROW = { name: SLAB, when: new Map(), opacity: 15, emission: 0, columns: COLUMNS.map(() => false) };

/** The dark cells that no torch can light, the one that the planner told among them: those that stay dark with a torch
 * at every place. */
async function cellsForSlabs(planner, box, rows, dark, need, told) {
  if (rows === null) return [told];
  const torches = [...hangsOf(box, rows)].map(([number, hang]) => {
    const [x, y, z] = box.position(number);
    return { x, y, z, hang };
  });
  const levels = await levelsOf(planner, utf8(textOfTorches({ torches, dark: dark.length, atLeast: null })));
  const number = (at) => box.number(...at);
  const low = dark.filter((at) => levels[number(at)] < need), found = new Map();
  for (const at of [told, ...low]) found.set(number(at), at);
  return [...found.keys()].sort((one, other) => one - other).map((at) => found.get(at));
}

/** A cave as the planner reads it, with slabs in these cells. */
function withSlabs(cave, cells) {
  const isThere = cave.read.palette.some(([name]) => name === SLAB), { read } = cave;
  const palette = isThere ? read.palette : [...read.palette, [SLAB, new Map()]];
  const found = new Box(read.size, palette, read.cells.slice(), read), index = palette.findIndex(([name]) => name === SLAB);
  for (const at of cells) found.cells[found.number(...at)] = index;
  const rows = cave.rows.includes(SLAB_ROW) ? cave.rows : [...cave.rows, SLAB_ROW];
  return readAs(cave, found, rows);
}

/** What has to be known of these cells, in the words of the world. */
function slabLines(box, cells) {
  return cells.map(([x, y, z]) => {
    const state = box.stateAt(x, y, z), under = box.stateAt(x, y - 1, z);
    const where = [x, y, z].map((at, axis) => at + (box.corner ? box.corner[axis] : 0)).join(" ");
    const there = state && under ? `${state[0]} over ${under[0]}` : "a cell";
    return `no torch can light ${where} (${there}), where a mob could spawn: put a slab there, in the lower half`;
  });
}
