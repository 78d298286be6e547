// Where the layer lies on the canvas: zoom by the wheel, by two fingers and by keys, and moves by dragging.

const LARGEST = 64; // pixels a cell
const FITTED = 36; // pixels a cell at which a small layer is shown first
const SLACK = 4; // pixels that a finger may move and still tap
const FINGER = 22; // pixels from the middle of a torch at which a tap still means it

/** The torch whose middle is nearest to a pixel, as far as a finger means it; null where there is none. */
function nearest(torches, view, px, py) {
  let found = null, least = FINGER;
  for (const torch of torches) {
    const [x, y] = [view.left + (torch.x + 0.5) * view.scale, view.top + (torch.z + 0.5) * view.scale];
    const far = Math.hypot(x - px, y - py);
    if (far <= least) [found, least] = [torch, far];
  }
  return found;
}

class View {
  /** A view of the cave on the canvas. `changed` is called after each change, `over` with a cell, `tapped` with a cell
   * and the pixel. */
  constructor(canvas, cave, { changed, tapped, over }) {
    Object.assign(this, { canvas, cave, changed, tapped, over });
    this.fingers = new Map();
    this.moved = false;
    this.fit();
    this.listen();
  }

  /** The room beside the rulers. */
  room() {
    const { clientWidth, clientHeight } = this.canvas;
    const wide = Math.max(1, clientWidth - leftRuler(this.cave) - 4);
    return { wide, tall: Math.max(1, clientHeight - RULER - 4) };
  }

  whole() {
    const { wide, tall } = this.room();
    return Math.min(wide / this.cave.wide, tall / this.cave.deep);
  }

  /** Shows the whole layer in the middle. */
  fit() {
    const { wide, tall } = this.room();
    this.scale = Math.min(FITTED, this.whole());
    this.left = leftRuler(this.cave) + (wide - this.cave.wide * this.scale) / 2;
    this.top = RULER + (tall - this.cave.deep * this.scale) / 2;
    this.isFitted = true;
    this.changed();
  }

  /** The cell under a pixel of the canvas; null outside the box. */
  cellAt(px, py) {
    const x = Math.floor((px - this.left) / this.scale), z = Math.floor((py - this.top) / this.scale);
    return x >= 0 && z >= 0 && x < this.cave.wide && z < this.cave.deep ? { x, z } : null;
  }

  /** Keeps some of the layer in sight. */
  clamp() {
    const { clientWidth, clientHeight } = this.canvas, keep = 60;
    this.left = Math.min(clientWidth - keep, Math.max(keep - this.cave.wide * this.scale, this.left));
    this.top = Math.min(clientHeight - keep, Math.max(keep - this.cave.deep * this.scale, this.top));
    this.isFitted = false;
    this.changed();
  }

  move(dx, dy) {
    this.left += dx;
    this.top += dy;
    this.clamp();
  }

  /** Zooms by a factor; what is under that pixel stays there. */
  zoom(factor, px = this.canvas.clientWidth / 2, py = this.canvas.clientHeight / 2) {
    const scale = Math.min(LARGEST, Math.max(Math.min(2, this.whole() / 1.5), this.scale * factor));
    this.left = px - ((px - this.left) * scale) / this.scale;
    this.top = py - ((py - this.top) * scale) / this.scale;
    this.scale = scale;
    this.clamp();
  }

  /** Brings a cell to the middle where it is out of sight. */
  show({ x, z }) {
    const px = this.left + (x + 0.5) * this.scale, py = this.top + (z + 0.5) * this.scale;
    const { clientWidth, clientHeight } = this.canvas, edge = 40;
    if (px < edge || py < edge || px > clientWidth - edge || py > clientHeight - edge) {
      this.move(clientWidth / 2 - px, clientHeight / 2 - py);
    }
  }

  listen() {
    const { canvas } = this;
    canvas.addEventListener("wheel", (event) => {
      event.preventDefault();
      const lines = event.deltaMode === 1 ? 30 : 1;
      this.zoom(Math.exp(-event.deltaY * lines * (event.ctrlKey ? 0.01 : 0.002)), event.offsetX, event.offsetY);
    }, { passive: false });
    canvas.addEventListener("pointerdown", (event) => this.down(event));
    canvas.addEventListener("pointermove", (event) => this.pointer(event));
    canvas.addEventListener("pointerup", (event) => this.up(event));
    canvas.addEventListener("pointercancel", (event) => this.up(event));
    canvas.addEventListener("pointerleave", (event) => {
      if (event.pointerType === "mouse") this.over(null); // a finger that leaves has told its cell
    });
  }

  down(event) {
    this.canvas.setPointerCapture(event.pointerId);
    this.fingers.set(event.pointerId, { x: event.offsetX, y: event.offsetY });
    this.moved = this.fingers.size > 1;
    this.start = { x: event.offsetX, y: event.offsetY };
  }

  pointer(event) {
    const now = { x: event.offsetX, y: event.offsetY }, before = this.fingers.get(event.pointerId);
    if (before === undefined) {
      this.over(this.cellAt(now.x, now.y));
      return;
    }
    if (Math.hypot(now.x - this.start.x, now.y - this.start.y) > SLACK) this.moved = true;
    if (this.fingers.size === 2) this.pinch(event.pointerId, before, now);
    else if (this.moved) {
      this.canvas.classList.add("dragged");
      this.move(now.x - before.x, now.y - before.y);
    }
    if (this.moved || this.fingers.size === 2) this.fingers.set(event.pointerId, now);
  }

  /** Zooms and moves as one of two fingers moves. */
  pinch(id, before, now) {
    const [, other] = [...this.fingers].find(([finger]) => finger !== id);
    const width = (at) => Math.max(10, Math.hypot(at.x - other.x, at.y - other.y));
    this.zoom(width(now) / width(before), (now.x + other.x) / 2, (now.y + other.y) / 2);
    this.move((now.x - before.x) / 2, (now.y - before.y) / 2);
  }

  up(event) {
    const before = this.fingers.get(event.pointerId);
    this.fingers.delete(event.pointerId);
    this.canvas.classList.remove("dragged");
    if (before && !this.moved && event.type === "pointerup") {
      this.tapped(this.cellAt(event.offsetX, event.offsetY), event.offsetX, event.offsetY);
    }
  }
}
