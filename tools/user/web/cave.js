"use strict";

// The cave and its plan, unpacked from the page's data. A cell's number is (y * Z + z) * X + x.

const HANGS = {
  floor: { words: "on the floor" },
  north: { words: "on the wall to its south", wall: [0, 1], faces: [0, -1] },
  east: { words: "on the wall to its west", wall: [-1, 0], faces: [1, 0] },
  south: { words: "on the wall to its north", wall: [0, -1], faces: [0, 1] },
  west: { words: "on the wall to its east", wall: [1, 0], faces: [-1, 0] },
};

/** The numbers in a text of base64: seven bits a byte, the lowest first. */
function* numbersOf(text) {
  const bytes = atob(text);
  let number = 0, shift = 1;
  for (let at = 0; at < bytes.length; at += 1) {
    const byte = bytes.charCodeAt(at);
    number += (byte & 127) * shift;
    shift *= 128;
    if (byte < 128) {
      yield number;
      number = 0;
      shift = 1;
    }
  }
}

/** Values of `count` cells, from pairs of a value and the length of its run. */
function unrun(text, count) {
  const values = new Uint32Array(count), numbers = numbersOf(text);
  for (let at = 0; at < count; ) {
    const value = numbers.next().value, length = numbers.next().value;
    values.fill(value, at, at + length);
    at += length;
  }
  return values;
}

/** Ascending numbers from the gaps between them. */
function ungap(text) {
  let last = 0;
  return Array.from(numbersOf(text), (gap) => (last += gap));
}

function caveOf(data) {
  const [wide, tall, deep] = data.size;
  const count = wide * tall * deep;
  const number = (x, y, z) => (y * deep + z) * wide + x;
  const has = (x, y, z) => x >= 0 && y >= 0 && z >= 0 && x < wide && y < tall && z < deep;
  const states = data.palette.map(([name, kind, colour]) => ({ name, kind, colour: rgbOf(colour) }));
  const cells = unrun(data.cells, count);
  const levels = unrun(data.levels, count);
  const dark = new Uint8Array(count);
  const darkCells = ungap(data.dark);
  darkCells.forEach((cell) => (dark[cell] = 1));
  const torches = data.torches.map(([x, y, z, hang], index) => ({ x, y, z, hang, index, ...HANGS[hang] }));
  const away = new Set((data.away || []).map(([x, y, z]) => number(x, y, z)));
  const layers = Array.from({ length: tall }, () => []);
  torches.forEach((torch) => layers[torch.y].push(torch));
  const torchAt = new Map(torches.map((torch) => [number(torch.x, torch.y, torch.z), torch]));
  return {
    ...data, wide, tall, deep, torches, levels, dark, number, has, darkCount: darkCells.length,
    /** The block state there; null where the file says nothing. */
    stateAt: (x, y, z) => (has(x, y, z) && states[cells[number(x, y, z)] - 1]) || null,
    /** Whether the torch that stands there is taken away. */
    isTakenAway: (x, y, z) => away.has(number(x, y, z)),
    torchAt: (x, y, z) => torchAt.get(number(x, y, z)),
    /** A box coordinate as the world has it, axis 0 to 2; the box's own where the corner isn't known. */
    worldly: (axis, at) => (data.corner === null ? at : data.corner[axis] + at),
    inLayer: (y) => layers[y] || [],
  };
}

/** Red, green and blue, 0 to 255, of a colour such as "#7c7d80". */
function rgbOf(colour) {
  return [1, 3, 5].map((at) => parseInt(colour.slice(at, at + 2), 16));
}
