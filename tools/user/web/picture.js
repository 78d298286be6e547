// Drawing a layer. A view says where its cells lie: `scale` pixels a cell, the first cell's corner at `left`, `top`.

const RULER = 22; // pixels of the strip at the top that has the coordinates
const GRID_FROM = 12, RIMS_FROM = 16, NUMBERS_FROM = 19; // the scales from which these are drawn
const CHUNK = 16;
const CHOSEN = 14; // pixels of the square about the chosen torch, at least

/** The cells of a layer that lie on a canvas of this size: the first and the last of each row and column. */
function visible(cave, view, width, height) {
  const first = (at) => Math.max(0, Math.floor(-at / view.scale));
  const last = (at, side, pixels) => Math.min(side - 1, Math.floor((pixels - at) / view.scale));
  return {
    x0: first(view.left), x1: last(view.left, cave.wide, width),
    z0: first(view.top), z1: last(view.top, cave.deep, height),
  };
}

function eachCell(part, act) {
  for (let z = part.z0; z <= part.z1; z += 1) for (let x = part.x0; x <= part.x1; x += 1) act(x, z);
}

/** Lines between cells, and stronger ones between chunks where the world's coordinates are known. */
function drawGrid(context, cave, view, part, theme) {
  const line = (axis, at, colour) => {
    context.fillStyle = colour;
    const over = (axis === 0 ? view.left : view.top) + at * view.scale;
    if (axis === 0) context.fillRect(over - 0.5, view.top, 1, cave.deep * view.scale);
    else context.fillRect(view.left, over - 0.5, cave.wide * view.scale, 1);
  };
  const draw = (axis, first, last) => {
    for (let at = first; at <= last + 1; at += 1) {
      const edge = cave.corner !== null && cave.worldly(2 * axis, at) % CHUNK === 0;
      if (edge) line(axis, at, theme.chunk);
      else if (view.scale >= GRID_FROM) line(axis, at, theme.grid);
    }
  };
  draw(0, part.x0, part.x1);
  draw(1, part.z0, part.z1);
}

/** A dot in each cell that was dark before: in its middle, or aside where a number stands there. */
function drawDark(context, cave, y, view, part, theme, isAside) {
  context.fillStyle = theme.dark;
  const side = Math.max(1, view.scale * (isAside ? 0.22 : 0.28)), more = view.scale * (isAside ? 0.24 : 0.5) - side / 2;
  context.beginPath();
  eachCell(part, (x, z) => {
    if (!cave.dark[cave.number(x, y, z)]) return;
    const left = view.left + x * view.scale + more, top = view.top + z * view.scale + more;
    if (view.scale < 8) context.rect(left, top, side, side);
    else {
      context.moveTo(left + side, top + side / 2);
      context.arc(left + side / 2, top + side / 2, side / 2, 0, 7);
    }
  });
  context.fill();
  if (view.scale < RIMS_FROM) return;
  context.lineWidth = 1;
  context.strokeStyle = theme.rim;
  context.stroke();
}

/** The level of light in each cell that isn't rock, as a number. */
function drawNumbers(context, cave, y, view, part, shown, theme) {
  context.font = `${Math.min(15, view.scale * 0.42)}px ${FONT}`;
  context.textAlign = "right";
  context.textBaseline = "alphabetic";
  eachCell(part, (x, z) => {
    const state = cave.stateAt(x, y, z), level = cave.levels[cave.number(x, y, z)];
    const isHidden = state === null || state.kind === "light" || cave.torchAt(x, y, z) !== undefined;
    if (isHidden || (state.kind === "solid" && level === 0)) return;
    context.fillStyle = brightness(colourAt(cave, x, y, z, shown, theme)) > 125 ? "#221500" : "#ffffff";
    context.fillText(level, view.left + (x + 0.93) * view.scale, view.top + (z + 0.92) * view.scale);
  });
}

function drawTorches(context, cave, y, view, theme, marks) {
  const middle = (torch) => [view.left + (torch.x + 0.5) * view.scale, view.top + (torch.z + 0.5) * view.scale];
  for (const torch of cave.torches) {
    if (Math.abs(torch.y - y) === 1) drawGhost(context, ...middle(torch), view.scale);
  }
  for (const torch of cave.inLayer(y)) {
    drawTorch(context, ...middle(torch), view.scale, torch, marks.done.has(torch.index));
    if (view.scale >= theme.labels) drawLabel(context, ...middle(torch), view.scale, torch.index + 1, theme);
  }
}

/** A square about a cell, which is at least `least` pixels wide. */
function drawOutline(context, view, cell, colour, least = 0) {
  const side = Math.max(view.scale, least), more = (view.scale - side) / 2;
  context.lineWidth = 2;
  context.strokeStyle = colour;
  context.strokeRect(view.left + cell.x * view.scale + more, view.top + cell.z * view.scale + more, side, side);
}

/** How many letters the longest coordinate along that axis has, 0 to 2. */
function longest(cave, axis) {
  return Math.max(...[0, cave.size[axis] - 1].map((at) => String(cave.worldly(axis, at)).length));
}

/** The pixels of the strip at the left. */
function leftRuler(cave) {
  return 14 + 6 * Math.max(3, longest(cave, 2));
}

/** The least step of coordinates for which there is room. */
function rulerStep(scale, room) {
  return [1, 2, 5, 10, 20, 50, 100].find((step) => step * scale >= room) || 200;
}

/** Coordinates along the top (x, to the east) and the left side (z, to the south): the world's where they are known. */
function drawRulers(context, cave, view, part, width, height, theme) {
  const each = (axis, first, last, act) => {
    const step = rulerStep(view.scale, axis === 0 ? 12 + 7 * longest(cave, 0) : 28);
    for (let at = first; at <= last; at += 1) {
      const told = cave.worldly(axis, at);
      if (told % step === 0) act(at, String(told).replace("-", "−"));
    }
  };
  const side = leftRuler(cave);
  context.fillStyle = theme.ruler;
  context.fillRect(0, 0, width, RULER);
  context.fillRect(0, RULER, side, height - RULER);
  context.fillStyle = theme.ink;
  context.font = `11px ${FONT}`;
  context.textBaseline = "middle";
  context.textAlign = "center";
  each(0, part.x0, part.x1, (x, told) => {
    const over = view.left + (x + 0.5) * view.scale;
    if (over > side + 14) context.fillText(told, over, RULER / 2 + 1);
  });
  context.textAlign = "right";
  each(2, part.z0, part.z1, (z, told) => {
    const down = view.top + (z + 0.5) * view.scale;
    if (down > RULER + 6) context.fillText(told, side - 5, down);
  });
  context.textAlign = "left";
  context.font = `600 11px ${FONT}`;
  context.fillText("z↓x→", 2, RULER / 2 + 1);
}

/** A whole layer: blocks, light, what was dark, lights, torches, coordinates. */
function drawLayer(context, cave, y, image, view, width, height, shown, theme, marks) {
  const part = visible(cave, view, width, height);
  context.fillStyle = css(theme.outside);
  context.fillRect(0, 0, width, height);
  context.imageSmoothingEnabled = false;
  context.drawImage(image, view.left, view.top, cave.wide * view.scale, cave.deep * view.scale);
  drawGrid(context, cave, view, part, theme);
  const isNumbered = shown.light && view.scale >= NUMBERS_FROM;
  if (shown.dark) drawDark(context, cave, y, view, part, theme, isNumbered);
  if (isNumbered) drawNumbers(context, cave, y, view, part, shown, theme);
  eachCell(part, (x, z) => {
    const state = cave.stateAt(x, y, z);
    if (state === null || state.kind !== "light") return;
    const middle = [view.left + (x + 0.5) * view.scale, view.top + (z + 0.5) * view.scale];
    drawLamp(context, ...middle, view.scale);
    if (cave.isTakenAway(x, y, z)) drawCross(context, ...middle, view.scale);
  });
  drawTorches(context, cave, y, view, theme, marks);
  if (marks.chosen && marks.chosen.y === y) drawOutline(context, view, marks.chosen, theme.chosen, CHOSEN);
  if (marks.cell) drawOutline(context, view, marks.cell, theme.ink);
  drawRulers(context, cave, view, part, width, height, theme);
}
