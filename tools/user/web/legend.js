// The legend: the signs and colours of the map, each drawn as the map draws it.

const SIGN = 24; // pixels of a sign's side
const GREY = [124, 125, 128]; // of stone
const OTHERS = [["water", "water"], ["lava", "lava"], ["thing", "another block, in its own colour"]];

/** Fills a sign with a colour. */
const filled = (colour) => (context) => {
  context.fillStyle = css(colour);
  context.fillRect(1, 1, SIGN - 2, SIGN - 2);
};

/** Torches and what stands beside them: the words of each, and what draws it. */
function torchSigns(hasAway) {
  const middle = SIGN / 2;
  const torch = (hang, isDone) => (context) => drawTorch(context, middle, middle, 20, hang, isDone);
  const away = ["a torch to take away", (context) => {
    drawLamp(context, middle, middle, SIGN);
    drawCross(context, middle, middle, SIGN);
  }];
  return [
    ["new torch on the floor", torch(HANGS.floor, false)],
    ["new torch on a wall; the arrow points away from it", torch(HANGS.east, false)],
    ["placed", torch(HANGS.floor, true)],
    ["torch a layer above or below", (context) => drawGhost(context, middle, middle, 22)],
    ["a light that stands there", (context) => drawLamp(context, middle, middle, SIGN)],
    ...(hasAway ? [away] : []),
  ];
}

/** A cell in which mobs could spawn. */
const spawnSign = (theme) => (context) => {
  filled(mix(lit(theme.room, 3, theme), theme.spawn, SPAWN))(context);
  context.beginPath();
  context.arc(8, 8, 4, 0, 7);
  context.fillStyle = theme.dark;
  context.fill();
  context.strokeStyle = theme.rim;
  context.stroke();
};

/** Room by its light: told where the light is known. */
function roomSigns(theme) {
  const level = (at) => filled(lit(mix(theme.room, GREY, 0.3), at, theme));
  return [
    ["room in bright light", level(14)],
    ["room in faint light", level(5)],
    ["room in the faintest light, 1", level(1)],
    ["room without block light", level(0)],
  ];
}

/** Rock, and those other kinds of blocks that the box has. */
function blockSigns(cave, theme) {
  const others = OTHERS.flatMap(([kind, words]) => {
    const block = cave.palette.find(([, other]) => other === kind);
    return block ? [[words, filled(mix(theme.room, rgbOf(block[2]), 0.72))]] : [];
  });
  return [["rock", filled(mix(theme.rock, GREY, theme.tint))], ...others];
}

/** The lines of the legend. */
function legendOf(cave, theme) {
  const signs = [
    ...torchSigns((cave.away || []).length > 0),
    ["dark before: mobs could spawn there", spawnSign(theme)],
    ...roomSigns(theme),
    ...blockSigns(cave, theme),
  ];
  return signs.map(([words, paint]) => {
    const sign = element("canvas", { width: 2 * SIGN, height: 2 * SIGN }), context = sign.getContext("2d");
    sign.style.width = sign.style.height = `${SIGN}px`;
    context.scale(2, 2);
    paint(context);
    return element("li", {}, sign, words);
  });
}
