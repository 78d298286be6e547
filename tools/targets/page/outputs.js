"use strict";

// The files of a plan, as `light` writes them into its folder (../../user/outputs.py).

const PROVED = "; plan.proof shows that no fewer do, and plan.check what the checker said of it";
const WIDEST_LOADED = 48;

/** A position of the box as README.txt tells it: the world's coordinates, or those of the corner, which are X Y Z, with
 * what is added. */
function placeOf(box, offset = [0, 0, 0]) {
  if (box.corner !== null) return box.corner.map((at, axis) => at + offset[axis]).join(" ");
  return offset.map((more, axis) => "XYZ"[axis] + (more ? `+${more}` : "")).join(" ");
}

/** How many torches, and what is known of fewer. */
function countedPlan(plan, verdict) {
  if (plan.torches.length === 0) return "none is needed.";
  const count = loadOf(plan.torches.length);
  if (plan.atLeast !== null) {
    const least = `${plan.atLeast} ${plan.atLeast === 1 ? "is" : "are"} needed`;
    return `${count}, safe; at least ${least}, and more time may find fewer.`;
  }
  return `${count}, and no fewer do${verdict ? ` (check: ${verdict})` : ""}.`;
}

function cornerOf(box) {
  if (box.corner === null) return ", where the structure was saved: X Y Z are its coordinates";
  return `: ${box.corner.join(" ")}${box.dimension ? ` in ${box.dimension}` : ""}`;
}

/** How to use the data pack; of a long plan in parts, which are run by hand where they aren't scheduled. */
function packNotes(box, plan) {
  const name = `${NAMESPACE}:${plainNameOfCave(box.name)}`, count = partsOf(plan.torches);
  const run = box.corner !== null ? "/function" : "/execute positioned X Y Z run function";
  const lines = [
    "a data pack (in SAVE/datapacks, then /reload). Near the cave, so that it is loaded:",
    `${run} ${name}/place sets the torches`,
    `${run} ${name}/undo puts back what was there, where a torch stands still`,
    `${run} ${name}/show marks their places, seen through walls, until /function ${name}/hide`,
  ];
  if (count > 1 && box.corner === null) {
    const parts = `run ${name}/place/1 to ${name}/place/${count} in turn`;
    lines.push(`too long for one function: ${parts}, so too undo/ and show/`);
  } else if (count > 1) lines.push(`each runs ${count} parts, one a tick`);
  return lines;
}

/** What the files of the folder are: each name, and its lines. */
function fileNotes(box, plan, verdict, others) {
  const [low, size] = boundsOf(plan.torches), at = placeOf(box, low), name = torchesName(box.name);
  const structure = [`for a structure block (in SAVE/generated/minecraft/structures): load it at ${at}`];
  if (Math.max(...size) > WIDEST_LOADED) {
    structure.push(`it is ${size.join(" x ")}, more than a structure block loads:`);
    structure.push(`/place template minecraft:${name} ${at} (1.19 and later)`);
  }
  const litematic = `for Litematica (in .minecraft/schematics): set the placement's origin to ${placeOf(box)}`;
  return [
    ["index.html", ["the map and the list, for a browser; needs no network"]],
    ["plan.txt", [`the plan as text${verdict ? PROVED : ""}`]],
    [`${name}.zip`, packNotes(box, plan)],
    [`${name}.litematic`, [litematic]],
    [`${name}.nbt`, structure],
    ...Object.entries(others).map(([other, what]) => [other, [what]]),
  ];
}

/** The lines of README.txt. `told` has what the plan depends on: version, rule, headroom, table; and other files. */
function readmeOf(box, plan, verdict, told, notes) {
  const name = box.name.replace(/[\p{C}\p{Z}]/gu, (letter) => (letter === " " ? letter : "?"));
  const files = fileNotes(box, plan, verdict, told.files || {});
  const wide = Math.max(...files.map(([file]) => Array.from(file).length));
  const rest = ["rule", "headroom", "table"].filter((word) => told[word]).map((word) => `${word} ${told[word]}`);
  return [
    `Torches for ${name || "a cave"}: ${countedPlan(plan, verdict)}`,
    `The corner is the lowest north-west corner of the planned box${cornerOf(box)}.`,
    ...notes,
    "",
    ...files.flatMap(([file, lines]) => lines.map((line, at) => `${(at ? "" : file).padEnd(wide)} ${line}`)),
    `Made with ${[`torchplan ${told.version}`, ...rest].join(", ")}`,
  ];
}

/** The files that are made of a plan: their bytes by their names. `notes` are what has to be known beside it. */
async function filesOfPlan(box, plan, dark, levels, verdict, told, notes = []) {
  const name = torchesName(box.name), readme = readmeOf(box, plan, verdict, told, notes);
  return new Map([
    ["index.html", utf8(planPage(box, plan, dark, levels, verdict, notes))],
    ["README.txt", utf8(readme.map((line) => `${line}\n`).join(""))],
    [`${name}.zip`, await packOf(box, plan)],
    [`${name}.litematic`, await packed(litematicOf(box, plan))],
    [`${name}.nbt`, await packed(structureOf(box, plan))],
  ]);
}
