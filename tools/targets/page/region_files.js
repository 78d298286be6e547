"use strict";

// Region files, in which a saved world keeps its chunks, 32 x 32 a file (Minecraft Wiki, "Region file format"): read as
// ../../user/region_files.py does, with the same faults. Only the parts that are asked for are read.

const REGION_SIDE = 32, SECTOR = 4_096;
const REGION_HEADER = 2 * SECTOR; // places, then times
const OUTSIDE = 128; // added to the packing of a chunk that has a file of its own
const PACKINGS = { 1: "gzip", 2: "deflate" }, NOT_PACKED = 3, LZ4 = 4;
const LZ4_TOLD = "it is packed by LZ4, which isn't read: set region-file-compression=deflate and have the game save it" +
  " again";

/** A number by which a whole number of times is taken away, as for coordinates below 0. */
const restOf = (number, by) => number - Math.floor(number / by) * by;

/** The bytes of a file from one place on, at most `count` of them. */
const bytesOfPart = async (file, from, count) => new Uint8Array(await file.slice(from, from + count).arrayBuffer());

/** The region file that has a chunk, told by the chunk's coordinates. `files` are those of a folder, by their names. */
class RegionFile {
  constructor(files, x, z) {
    this.files = files;
    this.name = `r.${Math.floor(x / REGION_SIDE)}.${Math.floor(z / REGION_SIDE)}.mca`;
  }

  /** The NBT of a chunk as bytes, or null where the file has none. */
  async chunk(x, z) {
    const file = this.files.get(this.name);
    if (!file || file.size === 0) return null;
    if (file.size < REGION_HEADER) {
      const ends = `it ends at ${grouped(file.size)}, within its header of ${grouped(REGION_HEADER)}`;
      throw refusedLine(`region file ${this.name}: ${ends}`);
    }
    const slot = 4 * (restOf(x, REGION_SIDE) + restOf(z, REGION_SIDE) * REGION_SIDE);
    const place = await bytesOfPart(file, slot, 4), first = (place[0] << 16) | (place[1] << 8) | place[2];
    return first === 0 && place[3] === 0 ? null : this.read(file, first, place[3], `c.${x}.${z}.mcc`);
  }

  /** The chunk's NBT, by its first sector and how many it has; `outside` is the file that it may have of its own. */
  async read(file, first, count, outside) {
    const start = first * SECTOR;
    if (start < REGION_HEADER) throw damaged(`its sector ${first} is one of the header`);
    if (start + 5 > file.size) throw damaged(`its sector ${first} lies behind the file's end`);
    const head = await bytesOfPart(file, start, 5), length = new DataView(head.buffer).getUint32(0), packing = head[4];
    if (length === 0 || length + 4 > count * SECTOR) {
      const sectors = `${count} of ${grouped(SECTOR)}`;
      throw damaged(`its length of ${grouped(length)} bytes doesn't fit its sectors, ${sectors}`);
    }
    const end = start + 4 + length;
    if (end > file.size) {
      throw damaged(`it is cut off: the file ends at ${grouped(file.size)}, the chunk at ${grouped(end)}`);
    }
    if (packing < OUTSIDE) return unpackedChunk(await bytesOfPart(file, start + 5, length - 1), packing);
    const whole = this.files.get(outside);
    if (!whole) throw damaged(`its file ${outside} isn't there`);
    if (whole.size > MOST_BYTES) throw damaged(`it has more than ${grouped(MOST_BYTES)} bytes`);
    return unpackedChunk(await bytesOfPart(whole, 0, whole.size), packing - OUTSIDE);
  }
}

/** The bytes of a chunk's NBT. */
async function unpackedChunk(bytes, packing) {
  if (packing === LZ4) throw damaged(LZ4_TOLD);
  if (packing === NOT_PACKED) return bytes;
  if (!(packing in PACKINGS)) throw damaged(`its compression ${packing} is none of 1 to 4`);
  return unpackedBy(PACKINGS[packing], bytes);
}

/** The coordinates of the chunks that a region file has, by its name and its header. */
async function chunksIn(name, file) {
  const [x, z] = name.split(".").slice(1, 3).map(Number), header = await bytesOfPart(file, 0, SECTOR), found = [];
  for (let slot = 0; slot + 4 <= header.length; slot += 4) {
    const isThere = header.subarray(slot, slot + 4).some((byte) => byte !== 0), index = slot / 4;
    if (isThere) found.push([x * REGION_SIDE + (index % REGION_SIDE), z * REGION_SIDE + Math.floor(index / REGION_SIDE)]);
  }
  return found;
}
