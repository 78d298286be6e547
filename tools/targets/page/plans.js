"use strict";

// What the program prints, read and written: plans, dark cells, levels; and torches as blocks: as plans.py and torches.py
// of ../../user have them.

const HANGS_OF_PLANS = ["floor", "north", "east", "south", "west"];
const AIR = ["minecraft:air", new Map()];

/** The plan that a text says: its torches, how many cells were dark, how many torches are needed at least where the
 * search was stopped (else null), and the rows of each layer that it draws, by its height. */
function readPlan(text) {
  const lines = text.split("\n"), words = lines[0].split(" ");
  if (words[0] !== "torches") throw damaged("the program answers otherwise than torchplan");
  const dark = Number((lines[1] || "").split(" ")[1] || 0), atLeast = words[2] === "at-least" ? Number(words[3]) : null;
  const plan = { torches: [], dark, atLeast, layers: new Map() };
  let rows = null;
  for (const line of lines.slice(2)) {
    if (line.startsWith("layer ")) plan.layers.set(Number(line.slice(6)), (rows = []));
    else if (rows !== null && line !== "") rows.push(line);
    else if (line.startsWith("T ")) {
      const [, x, y, z, hang] = line.split(" ");
      if (!HANGS_OF_PLANS.includes(hang)) throw damaged(`a torch hangs ${hang}`);
      plan.torches.push({ x: Number(x), y: Number(y), z: Number(z), hang });
    }
  }
  return plan;
}

const HANG_SIGNS = { floor: "T", north: "^", east: ">", south: "v", west: "<" };

/** The text of a plan without its layers. */
function textOfTorches({ torches, dark, atLeast }) {
  const lines = [`torches ${torches.length}${atLeast === null ? "" : ` at-least ${atLeast}`}`, `dark ${dark}`];
  for (const { x, y, z, hang } of torches) lines.push(`T ${x} ${y} ${z} ${hang}`);
  return lines.map((line) => `${line}\n`).join("");
}

/** The text of a plan in a box, as the program prints it. `signs` are those of the box's states. */
function textOfPlan(plan, box, signs) {
  const number = ({ x, y, z }) => box.number(x, y, z);
  const torches = [...plan.torches].sort((one, other) => number(one) - number(other)), [wide, , deep] = box.size;
  const at = new Map(torches.map((torch) => [number(torch), HANG_SIGNS[torch.hang]])), lines = [];
  const signAt = (cell) => at.get(cell) || (box.cells[cell] === NO_ENTRY ? "#" : signs[box.cells[cell]]);
  for (const y of [...new Set(torches.map((torch) => torch.y))].sort((one, other) => one - other)) {
    lines.push(`layer ${y}`);
    for (let z = 0; z < deep; z += 1) {
      lines.push(Array.from({ length: wide }, (_, x) => signAt(box.number(x, y, z))).join(""));
    }
  }
  return textOfTorches({ ...plan, torches }) + lines.map((line) => `${line}\n`).join("");
}

/** The text of a plan with a line more, behind that of the dark cells: the world's coordinates of the corner. */
function withCorner(text, { corner, dimension }) {
  const [first, second, ...rest] = text.split("\n");
  return [first, second, `corner ${corner.join(" ")} in ${dimension}`, ...rest].join("\n");
}

/** The dark cells that a text names: three numbers each. */
function readDark(text) {
  const [first, ...rest] = text.split("\n").filter((line) => line !== "");
  if (!/^dark /.test(first || "")) throw damaged("the program answers otherwise than torchplan");
  return rest.map((line) => line.split(" ").map(Number));
}

/** The level of each cell that a text tells, in the order of the cells' numbers. */
function readLevels(text) {
  const [first, ...rows] = text.split("\n"), [word, ...sides] = first.split(" "), digits = rows.join("");
  const count = sides.reduce((product, side) => product * Number(side), 1);
  if (word !== "levels" || digits.length !== count || !/^[0-9a-f]*$/.test(digits)) {
    throw damaged("the program answers otherwise than torchplan");
  }
  return Uint8Array.from(digits, (digit) => parseInt(digit, 16));
}

const placeOfTorch = ({ x, y, z }) => [x, y, z];
const torchList = (torches) => torches.map(({ x, y, z, hang }) => [x, y, z, hang]);

/** The block state of a torch that hangs so. */
function stateOfTorch({ hang }) {
  return hang === "floor" ? ["minecraft:torch", new Map()] : ["minecraft:wall_torch", new Map([["facing", hang]])];
}

/** The lowest corner and the sides of the least box that has all torches; without any, one cell at the corner. */
function boundsOf(torches) {
  const places = torches.length ? torches.map(placeOfTorch) : [[0, 0, 0]];
  const low = [0, 1, 2].map((axis) => places.reduce((least, place) => Math.min(least, place[axis]), Infinity));
  const high = [0, 1, 2].map((axis) => places.reduce((most, place) => Math.max(most, place[axis]), -Infinity));
  return [low, high.map((last, axis) => last - low[axis] + 1)];
}

/** The block state that a torch takes the place of. What no game could have written counts as air. */
function replacedBy(box, torch) {
  const [name, props] = box.stateAt(...placeOfTorch(torch)) || AIR, word = /^[a-z0-9_]+$/;
  if (!/^[a-z0-9_.-]+:[a-z0-9_./-]+$/.test(name)) return AIR;
  return [name, new Map([...props].filter((pair) => pair.every((one) => word.test(one))))];
}

/** A block state as commands have it. */
function argumentOf([name, props]) {
  const inner = [...props].sort(([one], [other]) => byCharacters(one, other)).map(([key, value]) => `${key}=${value}`);
  return inner.length > 0 ? `${name}[${inner.join(",")}]` : name;
}

/** What to carry, by stacks where it is more than one. */
function loadOf(count) {
  const full = Math.floor(count / 64), rest = count % 64;
  const told = `${count} torch${count === 1 ? "" : "es"}`;
  return count > 64 ? `${told} (${full} stack${full === 1 ? "" : "s"} of 64${rest ? ` and ${rest}` : ""})` : told;
}
