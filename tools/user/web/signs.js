// The signs of the map: torches, lights that stand there, and what is beside them. Each is drawn about the middle of a
// cell, `side` pixels wide.

const FONT = 'system-ui, -apple-system, "Segoe UI", Roboto, Arial, sans-serif';
const TORCH = "#e5381a", FLAME = "#ffd75e", STICK = "#8f5f33", DONE = "#3d8b4f", LAMP = "#ffd75e";

/** A light that stands there: a diamond. */
function drawLamp(context, x, y, side) {
  const radius = Math.max(2.5, side * 0.32);
  context.beginPath();
  context.moveTo(x, y - radius);
  context.lineTo(x + radius, y);
  context.lineTo(x, y + radius);
  context.lineTo(x - radius, y);
  context.closePath();
  context.fillStyle = LAMP;
  context.fill();
  context.lineWidth = Math.max(1, side * 0.06);
  context.strokeStyle = "#6b4a00";
  context.stroke();
}

/** A new torch about the middle of a cell: a disc, and its stick at the wall that it hangs on. */
function drawTorch(context, x, y, side, torch, isDone) {
  const radius = Math.max(3.5, side * (torch.wall ? 0.3 : 0.36));
  const [wx, wy] = torch.wall || [0, 0];
  if (torch.wall) {
    const reach = Math.max(side / 2, radius + 1.5), thick = Math.max(2.5, side * 0.16), long = Math.max(7, side * 0.62);
    context.fillStyle = isDone ? DONE : STICK;
    const [wide, tall] = wx === 0 ? [long, thick] : [thick, long];
    context.fillRect(x + wx * (reach - thick / 2) - wide / 2, y + wy * (reach - thick / 2) - tall / 2, wide, tall);
  }
  const [cx, cy] = [x + wx * side * 0.1, y + wy * side * 0.1];
  context.beginPath();
  context.arc(cx, cy, radius, 0, 7);
  context.fillStyle = isDone ? DONE : TORCH;
  context.fill();
  context.lineWidth = Math.max(1.2, side * 0.07);
  context.strokeStyle = "#ffffff";
  context.stroke();
  if (isDone) drawTick(context, cx, cy, radius);
  else if (torch.faces) drawArrow(context, cx, cy, radius, torch.faces);
  else drawFlame(context, cx, cy, radius);
}

function drawTick(context, x, y, radius) {
  context.beginPath();
  context.moveTo(x - radius * 0.45, y);
  context.lineTo(x - radius * 0.1, y + radius * 0.4);
  context.lineTo(x + radius * 0.5, y - radius * 0.4);
  context.lineWidth = Math.max(1.2, radius * 0.22);
  context.stroke();
}

function drawArrow(context, x, y, radius, [dx, dy]) {
  const at = (ahead, aside) => [x + (dx * ahead - dy * aside) * radius, y + (dy * ahead + dx * aside) * radius];
  context.beginPath();
  context.moveTo(...at(0.68, 0));
  context.lineTo(...at(-0.4, 0.58));
  context.lineTo(...at(-0.4, -0.58));
  context.closePath();
  context.fillStyle = FLAME;
  context.fill();
}

function drawFlame(context, x, y, radius) {
  context.beginPath();
  context.arc(x, y, radius * 0.45, 0, 7);
  context.fillStyle = FLAME;
  context.fill();
}

/** A torch that stands there and is taken away: its light, crossed out. */
function drawCross(context, x, y, side) {
  const reach = Math.max(3.5, side * 0.36);
  context.beginPath();
  context.moveTo(x - reach, y - reach);
  context.lineTo(x + reach, y + reach);
  context.moveTo(x + reach, y - reach);
  context.lineTo(x - reach, y + reach);
  context.lineWidth = Math.max(2, side * 0.12);
  context.strokeStyle = TORCH;
  context.stroke();
}

/** A torch one layer above or below, as a ring: its light comes here too. */
function drawGhost(context, x, y, side) {
  context.beginPath();
  context.arc(x, y, Math.max(3, side * 0.3), 0, 7);
  context.setLineDash([3, 2]);
  context.lineWidth = 1.5;
  context.strokeStyle = TORCH;
  context.stroke();
  context.setLineDash([]);
}

/** The number of a torch in the list, beside it. */
function drawLabel(context, x, y, side, words, theme) {
  context.font = `600 ${Math.max(10, Math.min(15, side * 0.5))}px ${FONT}`;
  context.textAlign = "left";
  context.textBaseline = "bottom";
  context.lineWidth = 3;
  context.lineJoin = "round";
  context.strokeStyle = theme.halo;
  context.strokeText(words, x + side * 0.36, y - side * 0.2);
  context.fillStyle = theme.ink;
  context.fillText(words, x + side * 0.36, y - side * 0.2);
}
