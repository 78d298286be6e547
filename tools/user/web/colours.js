// The colours of the map: of blocks, by the light that they have.

// Colours of the map, and the scale from which torches have their number beside them.
const THEMES = {
  dark: {
    outside: [16, 17, 22], rock: [34, 36, 45], room: [236, 216, 176], drop: [44, 38, 40],
    night: [36, 32, 66], tint: 0.26, labels: 13, grid: "rgba(0,0,0,.18)", chunk: "rgba(143,199,255,.34)",
    dark: "#7447ee", spawn: [116, 71, 238], rim: "rgba(255,255,255,.6)", ink: "#eceae4",
    ruler: "rgba(16,17,22,.86)", halo: "#16171c", chosen: "#8fc7ff",
  },
  light: {
    outside: [230, 225, 214], rock: [120, 118, 116], room: [255, 247, 228], drop: [150, 140, 128],
    night: [112, 108, 140], tint: 0.36, labels: 13, grid: "rgba(0,0,0,.12)", chunk: "rgba(11,98,184,.34)",
    dark: "#6334e0", spawn: [99, 52, 224], rim: "rgba(255,255,255,.7)", ink: "#23221f",
    ruler: "rgba(244,241,234,.9)", halo: "#ffffff", chosen: "#0b62b8",
  },
  print: {
    outside: [255, 255, 255], rock: [196, 196, 196], room: [255, 255, 255], drop: [224, 224, 224],
    night: [90, 90, 110], tint: 0.15, labels: 0, grid: "rgba(0,0,0,.16)", chunk: "rgba(0,0,0,.4)",
    dark: "#5a35c8", spawn: [150, 120, 240], rim: "#ffffff", ink: "#000000", ruler: "#ffffff", halo: "#ffffff",
    chosen: "#000000",
  },
};

const SPAWN = 0.42; // how much of its own colour a cell has in which mobs could spawn

const mix = (one, other, part) => one.map((value, at) => value + (other[at] - value) * part);
const brightness = ([red, green, blue]) => 0.3 * red + 0.59 * green + 0.11 * blue; // as eyes see it, 0 to 255
const css = (colour) => `rgb(${colour.map(Math.round).join(",")})`;

/** A colour in light of that level, 0 to 15: the night's hue at 0, and warm where it is bright. */
function lit(colour, level, theme) {
  const part = level / 15, warm = [1.06, 1, 0.86];
  const day = colour.map((value, at) => Math.min(255, value * (1 + (warm[at] - 1) * (0.4 + part))));
  if (level === 0) return mix(theme.night, day, 0.06); // mobs may spawn there
  return mix(mix(theme.night, day, 0.18), day, Math.pow(part, 0.85));
}

/** The colour of a cell of a layer. */
function colourAt(cave, x, y, z, shown, theme) {
  const state = cave.stateAt(x, y, z);
  if (state === null) return theme.outside;
  if (state.kind === "solid") return mix(theme.rock, state.colour, theme.tint);
  let colour = state.kind === "room" ? theme.room : mix(theme.room, state.colour, 0.72);
  const under = cave.stateAt(x, y - 1, z);
  if (shown.below && under !== null && state.kind !== "water" && state.kind !== "lava") {
    const open = under.kind === "room";
    colour = mix(colour, open ? theme.drop : under.colour, open ? 0.45 : 0.3);
  }
  const number = cave.number(x, y, z);
  if (shown.light && state.kind !== "lava") colour = lit(colour, cave.levels[number], theme);
  return shown.dark && cave.dark[number] ? mix(colour, theme.spawn, SPAWN) : colour;
}

/** A layer as a small canvas of one pixel a cell. */
function layerImage(cave, y, shown, theme) {
  const canvas = document.createElement("canvas");
  canvas.width = cave.wide;
  canvas.height = cave.deep;
  const context = canvas.getContext("2d");
  const image = context.createImageData(cave.wide, cave.deep);
  for (let z = 0; z < cave.deep; z += 1) {
    for (let x = 0; x < cave.wide; x += 1) {
      image.data.set([...colourAt(cave, x, y, z, shown, theme), 255], 4 * (z * cave.wide + x));
    }
  }
  context.putImageData(image, 0, 0);
  return canvas;
}
