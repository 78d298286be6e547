"use strict";

// The dimensions of a world, as ../../user/dimensions.py has them: what they are called, where their region files lie,
// and between which layers.

const OVERWORLD = DATA.dimensions.overworld;
const DIMENSION_NAME = new RegExp(`^(?:${DATA.dimensions.name})$`);
const USUAL_HEIGHTS = DATA.dimensions.usual, TALL_HEIGHTS = DATA.dimensions.tall;
const TALL_SINCE = release("1.18");

/** A dimension in a name: nothing of the Overworld. */
function plainDimension(dimension) {
  return dimension === OVERWORLD ? [] : [dimension.split("minecraft:").pop().replace(/[:/]/g, "_")];
}

/** Where its region files may lie, first as it is since 26.1 and for dimensions of data packs. */
function foldersOfDimension(dimension) {
  const at = dimension.indexOf(":"), own = DATA.dimensions.folders[dimension];
  return [`dimensions/${dimension.slice(0, at)}/${dimension.slice(at + 1)}/region`, ...(own ? [own] : [])];
}

/** The dimension whose region files lie in a folder of a world; null where it is no such folder. */
function dimensionIn(folder) {
  const own = Object.keys(DATA.dimensions.folders).find((name) => DATA.dimensions.folders[name] === folder);
  const [, space, name] = /^dimensions\/([^/]+)\/(.+)\/region$/.exec(folder) || [];
  return own || (name !== undefined && DIMENSION_NAME.test(`${space}:${name}`) ? `${space}:${name}` : null);
}

/** The lowest and the highest layer in which blocks can be; of dimensions of data packs, those that chunks have. */
function heightsOf(dimension, dataVersion, chunks) {
  if (dimension === OVERWORLD) return dataVersion >= TALL_SINCE.dataVersion ? TALL_HEIGHTS : USUAL_HEIGHTS;
  const layers = chunks.flatMap((chunk) => [...chunk.sections.keys()]);
  if (dimension in DATA.dimensions.folders || layers.length === 0) return USUAL_HEIGHTS;
  return [16 * Math.min(...layers), 16 * Math.max(...layers) + 15];
}
