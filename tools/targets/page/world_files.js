"use strict";

// A world among the files that were chosen, each told by its path: a world's folder, a folder of it, or region files
// alone. A browser shows no more of a disk than these.

const REGION_PATH = /^(?:(.*)\/)?(r\.-?\d+\.-?\d+\.mca|c\.-?\d+\.-?\d+\.mcc)$/;
const LEVEL_PATH = /^(?:(.*)\/)?level\.dat$/;
const ALONE = "world"; // what the world of region files is called whose folder isn't known
const NO_REGIONS = "There are no region files here. Choose the folder of a world, which has level.dat and a folder" +
  " region; or copy region/r.X.Z.mca out of it and choose these files.";

/** The folder of the world among these paths: the one that has level.dat, nearest to the top; null where none has. */
function rootFolder(paths) {
  const found = paths.map((path) => LEVEL_PATH.exec(path)).filter(Boolean).map(([, folder]) => folder || "");
  const depths = found.map((folder) => folder.split("/").length), least = Math.min(...depths);
  const nearest = found.filter((_, at) => depths[at] === least);
  if (nearest.length > 1) {
    const names = nearest.map((folder) => folder.split("/").pop()).sort(byCharacters);
    throw new Refusal(`There are ${nearest.length} worlds here (${names.slice(0, 5).join(", ")}). Choose one of them.`);
  }
  return nearest.length === 1 ? nearest[0] : null;
}

/** The world of these files, pairs of a path and a file: its name, level.dat or null, and for each dimension its region
 * files by their names. */
function worldAmong(files) {
  const root = rootFolder(files.map(([path]) => path)), found = new Map();
  let name = root === null ? null : root.split("/").pop(), level = null;
  for (const [path, file] of files) {
    const [, folder = "", own] = REGION_PATH.exec(path) || [];
    if (root !== null && path === [...(root ? [root] : []), "level.dat"].join("/")) level = file;
    if (own === undefined) continue;
    const [parent, dimension] = placeOfRegions(folder, root);
    if (dimension === null) continue;
    name = name || parent.split("/").pop();
    if (!found.has(dimension)) found.set(dimension, new Map());
    const folders = found.get(dimension);
    if (!folders.has(folder)) folders.set(folder, new Map());
    folders.get(folder).set(own, file);
  }
  if (found.size === 0) throw new Refusal(NO_REGIONS);
  const dimensions = new Map([...found].map(([dimension, folders]) => [dimension, firstOf(dimension, folders)]));
  return { name: name || ALONE, level, dimensions };
}

/** The folder of the world that has a folder of region files, and their dimension; null where they are none of blocks.
 * Files without a folder are taken for the Overworld's. */
function placeOfRegions(folder, root) {
  if (folder === "" && root === null) return ["", OVERWORLD];
  if (root !== null) {
    const inner = root === "" ? folder : folder.startsWith(`${root}/`) ? folder.slice(root.length + 1) : null;
    return [root, inner === null ? null : dimensionIn(inner)];
  }
  const parts = folder.split("/");
  for (let from = 0; from < parts.length; from += 1) {
    const dimension = dimensionIn(parts.slice(from).join("/"));
    if (dimension !== null) return [parts.slice(0, from).join("/"), dimension];
  }
  return ["", null];
}

/** The region files of a dimension: of the first of the folders in which they may lie. */
function firstOf(dimension, folders) {
  const at = (folder) => foldersOfDimension(dimension).findIndex((one) => folder === one || folder.endsWith(`/${one}`));
  return leastBy([...folders], ([folder]) => (at(folder) < 0 ? Infinity : at(folder)))[1];
}

/** A dimension of the world of these files; where none is told, the player's, or else the only one, or the Overworld. */
async function worldOf(files, told = null) {
  const { name, level, dimensions } = worldAmong(files), tells = await levelOf(level), { player } = tells;
  const names = [...dimensions.keys()], only = names.length === 1 ? names[0] : OVERWORLD;
  const dimension = told || (player && dimensions.has(player.dimension) ? player.dimension : only);
  if (!dimensions.has(dimension)) throw new Refusal(`This world has no region files of ${dimension}. ${NO_REGIONS}`);
  return { world: new World(name, dimension, dimensions.get(dimension), tells), names };
}

const MIDDLE_HEIGHT = 32; // of the box that is proposed where no player is
const TRIED_CHUNKS = 64;

/** The box that is proposed: about the player, or else in the middle of the chunks that are there; null where none is
 * whole. */
async function proposedExtent(world) {
  const { player } = world.level, isHere = player && player.dimension === world.dimension;
  if (isHere && (await world.whole(chunkAt(player.at[0]), chunkAt(player.at[2]))) !== null) {
    const [low, high] = world.heights();
    if (low <= player.at[1] && player.at[1] <= high) return extentAround(world, player.at);
  }
  const there = [];
  for (const [name, file] of world.files) if (name.endsWith(".mca")) there.push(...await chunksIn(name, file));
  const middle = [0, 1].map((axis) => there.reduce((sum, at) => sum + at[axis], 0) / Math.max(1, there.length));
  const far = (at) => Math.abs(at[0] - middle[0]) + Math.abs(at[1] - middle[1]);
  there.sort((one, other) => far(one) - far(other));
  for (const [x, z] of there.slice(0, TRIED_CHUNKS)) {
    const at = [x, z].map((place) => place * CHUNK_SIDE + CHUNK_SIDE / 2);
    if ((await world.whole(x, z)) !== null) return extentAround(world, [at[0], MIDDLE_HEIGHT, at[1]]);
  }
  return null;
}

/** What the page asks of a world before it is planned: its name, its dimensions, the one that is shown, and the box that
 * is proposed in it. */
async function seenOf(files, dimension) {
  const { world, names } = await worldOf(files, dimension);
  return { name: world.name, names, dimension: world.dimension, extent: await proposedExtent(world) };
}
