"use strict";

// The form for a box of a world: its dimension and two corners.

const CORNERS = ["from", "to"].map((corner) => ["x", "y", "z"].map((axis) => `${corner}-${axis}`));
const TITLES = {
  "minecraft:overworld": "Overworld", "minecraft:the_nether": "Nether", "minecraft:the_end": "End",
};

/** The corners as they stand in the form; null where a number is lacking. */
function cornersTold() {
  const told = CORNERS.map((names) => names.map((name) => byId(name).valueAsNumber));
  return told.flat().every(Number.isInteger) ? told : null;
}

/** Says which sides the box has. */
function tellSides() {
  const told = cornersTold();
  const sides = told && told[0].map((at, axis) => Math.abs(at - told[1][axis]) + 1);
  byId("sides").textContent = sides ? `${sides.join(" x ")} cells` : "Each corner takes three whole numbers.";
  byId("go").disabled = !sides;
}

/** Puts what was seen of a world into the form. The extent is null where no chunk of it is finished. */
function fillForm({ name, names, dimension, extent }) {
  byId("world-name").textContent = name;
  byId("dimension").replaceChildren(...names.map((one) =>
    element("option", { value: one, textContent: TITLES[one] || one, selected: one === dimension })));
  const told = extent ? [extent.low, extent.high] : CORNERS.map(() => ["", "", ""]);
  CORNERS.forEach((inputs, corner) => inputs.forEach((input, axis) => (byId(input).value = told[corner][axis])));
  tellSides();
}

function listenToForm() {
  for (const input of CORNERS.flat()) byId(input).addEventListener("input", tellSides);
  byId("dimension").addEventListener("change", () => look(byId("dimension").value));
  byId("world").addEventListener("submit", (event) => {
    event.preventDefault();
    const world = { files: state.files, dimension: byId("dimension").value, corners: cornersTold() };
    state.cave = { file: byId("world-name").textContent, world };
    plan();
  });
}
