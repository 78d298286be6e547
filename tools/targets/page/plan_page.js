"use strict";

// The page of a plan, byte for byte as ../../user/page.py makes it, of the same parts (../../user/web); looks.py says
// how a block is drawn.

const LOOKS = DATA.looks;
const plainName = (name) => name.slice(name.indexOf(":") + 1);
const hasAny = (words, set) => words.some((word) => set.includes(word));

/** What a block is on the map, by its name. */
function kindOf([told, props]) {
  const name = plainName(told), words = name.split("_");
  if (LOOKS.air.includes(name)) return "room";
  if (name === "water" || name === "lava") return name;
  const isLit = props.get("lit") === "true" || hasAny(words, LOOKS.shining) || LOOKS.shiningNames.includes(name);
  if (isLit) return "light";
  const isSlight = LOOKS.slightNames.includes(name) || (hasAny(words, LOOKS.slight) && !hasAny(words, LOOKS.full));
  return isSlight ? "thing" : "solid";
}

/** The colour of a block, by its name. */
function colourOf(told) {
  const name = plainName(told);
  const found = LOOKS.colours.find(([, parts]) => parts.split(" ").some((part) => name.includes(part)));
  return found ? found[0] : LOOKS.grey;
}

/** What each block state of the box is: by the layers that the plan draws, and else by its name. */
function kindsOf(box, plan) {
  const found = box.palette.map(kindOf), told = new Map(), signs = { ".": "room", "*": "light" };
  for (const [y, rows] of plan.layers) {
    rows.forEach((row, z) => [...row].forEach((sign, x) => {
      const number = box.number(x, y, z);
      if (".*#".includes(sign) && !box.made.has(number)) told.set(box.cells[number], sign);
    }));
  }
  for (const [index, sign] of told) {
    if (index === NO_ENTRY || found[index] === "lava") continue;
    const isShown = found[index] === "room" || found[index] === "light";
    found[index] = signs[sign] || (isShown ? "thing" : found[index]);
  }
  return found;
}

/** Numbers as base64 of their bytes: seven bits each, the lowest first. */
function textOfNumbers(numbers) {
  const bytes = [];
  for (let number of numbers) {
    for (; number > 127; number = Math.floor(number / 128)) bytes.push((number & 127) | 128);
    bytes.push(number);
  }
  return base64(Uint8Array.from(bytes));
}

/** Values with many repeats: each with the length of its run. */
function runsOf(values) {
  const numbers = [];
  let length = 0;
  for (let at = 0; at < values.length; at += 1) {
    length += 1;
    if (at + 1 < values.length && values[at + 1] === values[at]) continue;
    numbers.push(values[at], length);
    length = 0;
  }
  return textOfNumbers(numbers);
}

/** Ascending numbers: each by how much it is more than the one before. */
const gapsOf = (numbers) => textOfNumbers(numbers.map((number, at) => number - (at ? numbers[at - 1] : 0)));

/** Under which name a browser keeps what is ticked off: another for each cave and plan. */
function keyOfPlan(box, plan) {
  const told = jsonOf([box.name, box.size, box.corner, box.dimension, torchList(plan.torches)], ", ", ": ");
  return `torchplan-${sha256(utf8(told)).slice(0, 16)}`;
}

/** A block state as the page names it. */
const shownState = ([name, props]) => argumentOf([name.replace(/^minecraft:/, ""), props]);

/** What the scripts of the page read. */
function dataOfPage(box, plan, dark, levels, verdict, notes) {
  const kinds = kindsOf(box, plan);
  return {
    name: box.name,
    size: box.size,
    corner: box.corner,
    dimension: box.dimension,
    palette: box.palette.map((state, at) => [shownState(state), kinds[at], colourOf(state[0])]),
    cells: runsOf(box.cells.map((index) => index + 1)),
    levels: runsOf(levels),
    dark: gapsOf(dark.map((place) => box.number(...place)).sort((one, other) => one - other)),
    torches: torchList(plan.torches),
    atLeast: plan.atLeast,
    verdict,
    notes,
    away: [], // the page takes no torches away that stand there, and lists none apart
    total: plan.torches.length,
    apart: 0,
    key: keyOfPlan(box, plan),
  };
}

const ESCAPES = { "&": "&amp;", "<": "&lt;", ">": "&gt;", '"': "&quot;", "'": "&#x27;" };
const escapedText = (text) => text.replace(/[&<>"']/g, (letter) => ESCAPES[letter]);

/** The text of the page. `notes` are what has to be known beside the plan, in lines. */
function planPage(box, plan, dark, levels, verdict, notes) {
  const data = jsonOf(dataOfPage(box, plan, dark, levels, verdict, notes));
  const pieces = {
    TITLE: escapedText(box.name ? `Torches for ${box.name}` : "Torches"),
    STYLE: DATA.web.style,
    DATA: data.replaceAll("<", "\\u003c").replaceAll(">", "\\u003e"),
    SCRIPT: DATA.web.script,
  };
  return DATA.web.page.replace(/\{\{(\w+)\}\}/g, (_, name) => pieces[name]);
}
