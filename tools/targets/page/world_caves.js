"use strict";

// A box of a world as a cave to plan, as ../../user/sources.py reads it and box_runs.py has the planner read it.

const OTHER_LEVELS = DATA.worlds.otherLevels;
const OTHER_RULE = "Mobs of other dimensions than the Overworld spawn at other levels. Choose under Options which game's" +
  " rule to plan by all the same.";

/** What to call an extent of a world. */
function nameOfExtent(world, { low, high }) {
  return [world.name, ...plainDimension(world.dimension), ...low, "to", ...high].join(" ");
}

/** What has to be known of chunks that aren't there, in the box and about it. */
async function missingLines(world, extent, around) {
  const inside = await missingIn(world, extent), known = new Set(inside.map(String));
  const beside = (await missingIn(world, around)).filter((at) => !known.has(String(at)));
  return [["of the box", inside], ["around the box", beside]].filter(([, places]) => places.length > 0).map(
    ([where, places]) => {
      const [x, z] = places[0], count = places.length;
      const told = count === 1 ? `1 chunk ${where} isn't` : `${grouped(count)} chunks ${where} aren't`;
      return `${told} there or finished, from chunk ${x} ${z} (at ${16 * x} ${16 * z}) on. They count as nothing: no` +
        " ground, no light, no room. Walk there in the game first";
    });
}

/** The cave of an extent: its box has one layer more on each side, and `around` is a larger box about it. */
async function caveOfExtent(world, extent) {
  const shell = grownExtent(extent, 1), wide = grownExtent(extent, MARGIN), [low, high] = world.heights();
  const bottom = Math.min(shell.low[1], Math.max(wide.low[1], low));
  const top = Math.max(shell.high[1], Math.min(wide.high[1], high));
  const around = { low: [wide.low[0], bottom, wide.low[2]], high: [wide.high[0], top, wide.high[2]] };
  const larger = await readBox(world, around);
  const box = larger.part(shell.low.map((at, axis) => at - around.low[axis]), sizeOfExtent(shell));
  box.name = nameOfExtent(world, extent);
  const other = world.dimension === OVERWORLD ? [] : [OTHER_LEVELS];
  return { box, around: larger, name: box.name, notes: [...other, ...await missingLines(world, extent, around)] };
}

/** The cave of a box of the world of these files, told by two corners. */
async function caveOfWorld(files, dimension, corners, rule) {
  const extent = extentBetween(...corners), { world } = await worldOf(files, dimension);
  if (world.dimension !== OVERWORLD && rule === null) throw new Refusal(OTHER_RULE);
  if (!isSmallExtent(extent)) {
    const most = `sides up to ${LONGEST_SIDE - 2}, and ${grouped(MOST_CELLS)} cells with one layer more on each side`;
    throw new Refusal(`The box has ${sizeOfExtent(extent).join(" x ")} cells. A page plans boxes with ${most}; light on a` +
      " computer plans larger areas in pieces.");
  }
  await requireBlocks(world, extent);
  return caveOfExtent(world, extent);
}

/** A cave that the planner reads as another box, with the rows of made names. */
function readAs(cave, read, rows) {
  const { cells } = read;
  cave.box.made = new Set([...cells.keys()].filter((number) => cells[number] !== cave.box.cells[number]));
  return { ...cave, read, rows, data: boxFile(read), isMade: true };
}

/** The cave as the planner reads it: with its shell, and the shell's rows. */
function withShell(cave, rows, headroom) {
  const shell = shelled(cave.box, cave.around, rows, Number(headroom));
  return readAs(cave, shell.read, shell.rows);
}
