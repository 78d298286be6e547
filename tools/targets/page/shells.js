"use strict";

// What stands around a box of a world: one layer more on each side, its shell, as states of made names whose rows say
// what a cell of it is to the box, as ../../user/shells.py makes it.

const MARGIN = DATA.worlds.margin; // layers about a box that are read: light that comes from farther has faded
const BRIGHTEST = 15;

/** The block light of each cell of a field (Minecraft Wiki, "Light"), by what shines in it: from the brightest down, each
 * round has the cells that reached its level. */
function lightOf(field) {
  const { costs, steps } = field, levels = field.told((row) => row.emission, 0);
  const rounds = Array.from({ length: BRIGHTEST + 1 }, () => []);
  levels.forEach((level, at) => {
    if (level > 0) rounds[level].push(at);
  });
  for (let level = BRIGHTEST; level > 1; level -= 1) {
    for (const at of rounds[level]) {
      if (levels[at] !== level) continue;
      for (const step of steps) {
        const other = at + step, brought = level - costs[other];
        if (brought > levels[other]) {
          levels[other] = brought;
          rounds[brought].push(other);
        }
      }
    }
  }
  return levels;
}

/** The numbers of the cells of the outermost layers of a box of these sides, ascending, and whether each is of the
 * highest. */
function outerCells([wide, tall, deep]) {
  const found = [];
  for (let y = 0; y < tall; y += 1) {
    for (let z = 0; z < deep; z += 1) {
      const start = (y * deep + z) * wide, isHigh = y === tall - 1, isWall = z === 0 || z === deep - 1;
      const row = y === 0 || isHigh || isWall ? Array.from({ length: wide }, (_, x) => x) : [0, wide - 1];
      for (const x of row) found.push([start + x, isHigh]);
    }
  }
  return found;
}

/** A box as the planner reads it, whose outermost layers are its shell, and the rows of the shell's states. `around` is a
 * larger box of the same world, `rows` those of the table, `headroom` the free cells that a mob needs. */
function shelled(box, around, rows, headroom) {
  const field = new Field(around, rows), levels = lightOf(field);
  const offset = box.corner.map((at, axis) => at - around.corner[axis]);
  const classes = box.palette.map((state) => rowOf(rows, state)), shellRows = [], made = new Map();
  const [free, stand, top, side] = ["free", "stand", "top", "side"].map((column) => COLUMNS.indexOf(column));
  const found = new Box([...box.size], [...box.palette], box.cells.slice(), box);
  for (const [number, isHigh] of outerCells(box.size)) {
    if (box.cells[number] === NO_ENTRY) continue;
    const row = classes[box.cells[number]], at = box.position(number).map((place, axis) => place + offset[axis]);
    const emission = levels[field.place(around.number(...at))], columns = row.columns.map(() => false);
    columns[free] = isHigh && headroom === 2 && row.columns[free];
    for (const column of [stand, top, side]) columns[column] = row.columns[column];
    const key = JSON.stringify([row.opacity, emission, columns]);
    if (!made.has(key)) {
      const name = `shell:${made.size + 1}`;
      made.set(key, found.palette.push([name, new Map()]) - 1);
      shellRows.push({ name, when: new Map(), opacity: row.opacity, emission, columns });
    }
    found.cells[number] = made.get(key);
  }
  return { read: found, rows: shellRows };
}
