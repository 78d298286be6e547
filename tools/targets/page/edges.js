"use strict";

// Free cells at the edge of a structure, as ../../user/edges.py tells of them.

const SIDE_WORDS = { below: "at the bottom", above: "at the top" };

/** Whether a mob can stand on any block of the box. */
function hasGround(box, rows) {
  const used = new Set(box.cells), stand = COLUMNS.indexOf("stand");
  return box.palette.some((state, index) => {
    const row = used.has(index) ? rowOf(rows, state) : null;
    return row !== null && row.columns[stand];
  });
}

/** What has to be known of the edge, by what the planner told of it (null where it told nothing): one line. Nothing of
 * open sky, in which there is no ground and no cell is dark. `rows` are null where the table isn't read here. */
function edgeLines(told, box, rows, dark) {
  if (told === null || !(dark.length > 0 || rows === null || hasGround(box, rows))) return [];
  const found = told.split(";")[0].matchAll(/(\d+) (west|east|north|south|below|above)/g);
  const sides = Array.from(found, ([, count, side]) => `${count} ${SIDE_WORDS[side] || `in the ${side}`}`);
  return [`free cells at the box's edge: ${sides.join(", ")}. What lies beyond counts as nothing: no ground, no` +
    " light, no room. Save one block more of floor, walls and ceiling, or plan a box of the world by --world"];
}
