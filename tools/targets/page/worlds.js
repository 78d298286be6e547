"use strict";

// Saved worlds (Minecraft Wiki, "Java Edition level format"): which chunks there are, and the blocks of a box, as
// ../../user/worlds.py reads them. Nothing is ever written to a world.

// The box about a point: its sides, and how far the point stands from its lowest corner.
const AROUND_SIZE = DATA.worlds.around, AROUND_AT = DATA.worlds.at;

/** What level.dat tells: the version of the game's data, or null; and where the player stands, a cell and the dimension,
 * or null. Nothing where there is no such file. */
async function levelOf(file) {
  if (!file) return { dataVersion: null, player: null };
  try {
    const bytes = await plain(new Uint8Array(await file.arrayBuffer()));
    const data = heldIn(rootOf(bytes), "Data", COMPOUND) || new Map();
    const dataVersion = heldIn(data, "DataVersion", INT);
    return { dataVersion, player: playerOf(heldIn(data, "Player", COMPOUND) || new Map()) };
  } catch (fault) {
    throw withPlace("level.dat", fault);
  }
}

function playerOf(entries) {
  const [kind, numbers] = heldIn(entries, "Pos", LIST) || [DOUBLE, []];
  if (kind !== DOUBLE || numbers.length !== 3 || !numbers.every(Number.isFinite)) return null;
  const [told, text] = entries.get("Dimension") || [];
  const dimension = told === TEXT ? textOf(text) : OVERWORLD;
  return { at: numbers.map(Math.floor), dimension: DIMENSION_NAME.test(dimension) ? dimension : OVERWORLD };
}

/** A dimension of a saved world. `files` are its region files by their names. */
class World {
  constructor(name, dimension, files, level) {
    Object.assign(this, { name, dimension, files, level, dataVersion: level.dataVersion || 0 });
    this.chunks = new Map();
  }

  /** A chunk by its coordinates, or null where it isn't there. */
  async chunk(x, z) {
    const key = `${x} ${z}`;
    if (!this.chunks.has(key)) this.chunks.set(key, await this.read(x, z).catch((fault) => fault));
    const found = this.chunks.get(key);
    if (found instanceof Error) throw found;
    return found;
  }

  /** A chunk from its file, or null where it isn't there. */
  async read(x, z) {
    const file = new RegionFile(this.files, x, z), where = `region file ${file.name}: chunk ${x} ${z}`;
    let found = null;
    try {
      const data = await file.chunk(x, z);
      found = data === null ? null : new Chunk(data, x, z);
    } catch (fault) {
      throw withPlace(where, fault);
    }
    if (found && found.isWhole && this.level.dataVersion === null) this.dataVersion = Math.max(this.dataVersion, found.dataVersion);
    return found;
  }

  /** A chunk that the game has made and finished, or null. */
  async whole(x, z) {
    const found = await this.chunk(x, z);
    return found && found.isWhole ? found : null;
  }

  /** The lowest and the highest layer in which blocks can be. */
  heights() {
    const chunks = [...this.chunks.values()].filter((found) => found instanceof Chunk);
    return heightsOf(this.dimension, this.dataVersion, chunks);
  }
}

const chunkAt = (at) => Math.floor(at / CHUNK_SIDE);

/** The coordinates of the chunks that an extent has cells of, from north to south, then from west to east. */
function chunksOf({ low, high }) {
  const found = [];
  for (let z = chunkAt(low[2]); z <= chunkAt(high[2]); z += 1) {
    for (let x = chunkAt(low[0]); x <= chunkAt(high[0]); x += 1) found.push([x, z]);
  }
  return found;
}

/** The chunks of an extent that aren't there and finished. */
async function missingIn(world, extent) {
  const found = [];
  for (const [x, z] of chunksOf(extent)) if ((await world.whole(x, z)) === null) found.push([x, z]);
  return found;
}

/** The largest extent about a point, up to 76 x 40 x 76, within the heights of the world and the chunks that are there
 * and finished. It has 16 layers below the point, where the heights allow. */
async function extentAround(world, [x, y, z]) {
  const home = [chunkAt(x), chunkAt(z)];
  await requireChunks(world, [home]);
  const [low, high] = world.heights();
  if (y < low || y > high) throw refusedLine(`y ${y} lies outside of the world, whose layers are ${low} to ${high}`);
  const bottom = Math.min(Math.max(y - AROUND_AT[1], low), high - AROUND_SIZE[1] + 1);
  const wanted = extentOfSize([x - AROUND_AT[0], bottom, z - AROUND_AT[2]], AROUND_SIZE);
  const [west, east, north, south] = await grownChunks(world, home, wanted), last = CHUNK_SIDE - 1;
  const reached = {
    low: [west * CHUNK_SIDE, bottom, north * CHUNK_SIDE],
    high: [east * CHUNK_SIDE + last, wanted.high[1], south * CHUNK_SIDE + last],
  };
  return {
    low: wanted.low.map((at, axis) => Math.max(at, reached.low[axis])),
    high: wanted.high.map((at, axis) => Math.min(at, reached.high[axis])),
  };
}

/** The first and the last column and row of chunks about the chunk at home, grown by a side in turn for as long as all
 * chunks of a side are whole and have cells of the extent that is wanted. */
async function grownChunks(world, home, wanted) {
  const near = new Set(chunksOf(wanted).map(String));
  const run = (low, high) => Array.from({ length: high - low + 1 }, (_, at) => low + at);
  let [west, north] = home, [east, south] = home;
  for (const sides = [0, 1, 2, 3]; sides.length > 0; ) {
    const side = sides.shift(), x = side === 0 ? west - 1 : east + 1, z = side === 2 ? north - 1 : south + 1;
    const more = side < 2 ? run(north, south).map((at) => [x, at]) : run(west, east).map((at) => [at, z]);
    let isWhole = more.every((at) => near.has(String(at)));
    for (const at of more) isWhole = isWhole && (await world.whole(...at)) !== null;
    if (!isWhole) continue;
    [west, east] = [west - (side === 0), east + (side === 1)];
    [north, south] = [north - (side === 2), south + (side === 3)];
    sides.push(side);
  }
  return [west, east, north, south];
}

/** Refuses places none of whose chunks is there and finished. */
async function requireChunks(world, places) {
  for (const at of places) if ((await world.whole(...at)) !== null) return;
  const [x, z] = places[0], more = places.length - 1, also = more ? `, nor are ${more} more of the box` : "";
  const { name } = new RegionFile(world.files, x, z), found = await world.chunk(x, z);
  if (found) {
    throw refusedLine(`region file ${name}: chunk ${x} ${z}: the game hasn't finished it (Status ${found.status}): walk` +
      " there first");
  }
  throw refusedLine(`region file ${name}: chunk ${x} ${z} isn't there${also}: walk there in the game first`);
}

/** Refuses an extent of which nothing is known. */
async function requireBlocks(world, extent) {
  const places = chunksOf(extent);
  await requireChunks(world, places);
  const [low, high] = world.heights();
  if (low <= extent.high[1] && extent.low[1] <= high) return;
  const isInside = (height) => chunkAt(extent.low[1]) <= height && height <= chunkAt(extent.high[1]);
  for (const at of places) {
    const found = await world.whole(...at);
    if (found !== null && [...found.sections.keys()].some(isInside)) return;
  }
  throw refusedLine(`the box lies outside of the world, whose layers are ${low} to ${high}`);
}

/** The blocks of an extent. Nothing is known of chunks that aren't there and finished, nor beyond the world's heights
 * where the chunks have no section; within them a chunk's absent section is air. */
async function readBox(world, extent) {
  const size = sizeOfExtent(extent), cells = new Int32Array(countOf(size)).fill(NO_ENTRY);
  const box = new Box(size, [], cells, { corner: extent.low, dimension: world.dimension }), states = new Map();
  for (const [x, z] of chunksOf(extent)) {
    const found = await world.whole(x, z);
    try {
      if (found !== null) fillChunk(box, states, found, world.heights(), x, z);
    } catch (fault) {
      throw withPlace(`region file ${new RegionFile(world.files, x, z).name}: chunk ${x} ${z}`, fault);
    }
  }
  box.dataVersion = world.dataVersion;
  return box;
}

/** The index of a block state in the box's palette, which gets it where it has it not. */
function placeOfState(box, states, state) {
  const props = [...state[1]].sort(([one], [other]) => byCharacters(one, other)), key = JSON.stringify([state[0], props]);
  if (!states.has(key)) states.set(key, box.palette.push(state) - 1);
  return states.get(key);
}

/** Puts in the blocks of one chunk, a run of a section's row at a time. */
function fillChunk(box, states, chunk, [low, high], x, z) {
  const [left, bottom, back] = box.corner, [wide, tall, deep] = box.size, side = CHUNK_SIDE;
  const west = Math.max(x * side, left), east = Math.min(x * side + side, left + wide);
  for (let height = chunkAt(bottom); height <= chunkAt(bottom + tall - 1); height += 1) {
    const section = chunk.section(height), { palette, indices } = section || { palette: [AIR], indices: null };
    const known = palette.map((state) => placeOfState(box, states, state));
    for (let y = Math.max(height * side, bottom); y < Math.min(height * side + side, bottom + tall); y += 1) {
      if (indices === null && (y < low || y > high)) continue;
      for (let at = Math.max(z * side, back); at < Math.min(z * side + side, back + deep); at += 1) {
        const to = box.number(west - left, y - bottom, at - back);
        const start = (restOf(y, side) * side + restOf(at, side)) * side + restOf(west, side);
        for (let step = 0; step < east - west; step += 1) {
          box.cells[to + step] = known[indices === null ? 0 : indices[start + step]];
        }
      }
    }
  }
}
