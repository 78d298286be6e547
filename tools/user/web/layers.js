// The overview: a small map of each layer, drawn once it is opened. A click on one goes to its layer.

const SMALL = 72; // pixels of a small map's longer side
const LARGEST_SMALL = 6; // pixels a cell of a small map
const SLICE = 12; // milliseconds that small maps take of a frame

/** A layer as a small map: its cells, and a dot for each torch. */
function drawSmall(canvas, cave, y, shown, theme, done) {
  const scale = canvas.width / cave.wide, radius = Math.max(5, scale * 0.45), context = canvas.getContext("2d");
  context.imageSmoothingEnabled = scale < 1;
  context.drawImage(layerImage(cave, y, shown, theme), 0, 0, canvas.width, canvas.height);
  for (const torch of cave.inLayer(y)) {
    context.beginPath();
    context.arc((torch.x + 0.5) * scale, (torch.z + 0.5) * scale, radius, 0, 7);
    context.fillStyle = done.has(torch.index) ? DONE : TORCH;
    context.fill();
    context.lineWidth = 1.5;
    context.strokeStyle = "#ffffff";
    context.stroke();
  }
}

class Overview {
  /** The small maps in the holder, within `details`. `name` tells how a layer is called, `look` how it is drawn, and
   * `goTo` is called with the layer that is clicked. */
  constructor(details, holder, cave, { name, look, goTo }) {
    Object.assign(this, { details, cave, look });
    this.stale = new Set(Array.from({ length: cave.tall }, (_, y) => y));
    this.asked = false;
    this.maps = Array.from(this.stale, (y) => this.map(y, name(y), goTo));
    holder.append(...this.maps.map(({ button }) => button));
    details.addEventListener("toggle", () => this.draw());
  }

  map(y, name, goTo) {
    const { cave } = this, scale = Math.min(LARGEST_SMALL, SMALL / Math.max(cave.wide, cave.deep));
    const [wide, tall] = [cave.wide, cave.deep].map((side) => Math.max(1, Math.round(2 * side * scale)));
    const canvas = element("canvas", { width: wide, height: tall });
    canvas.style.width = `${wide / 2}px`;
    const count = cave.inLayer(y).length, told = count === 0 ? "no torch" : counted(count, "torch");
    const words = element("span", {}, name, element("small", { textContent: told }));
    const button = element("button", { type: "button" }, canvas, words);
    button.addEventListener("click", () => goTo(y));
    return { button, canvas };
  }

  /** Marks the layer that is shown on the large map. */
  mark(y) {
    this.maps.forEach(({ button }, at) => {
      button.classList.toggle("here", at === y);
      button.setAttribute("aria-current", at === y);
    });
  }

  /** Has these layers drawn anew. */
  renew(layers = this.maps.keys()) {
    for (const y of layers) this.stale.add(y);
    this.draw();
  }

  /** Draws what is stale while the overview is open, some maps a frame. */
  draw() {
    if (this.asked || !this.details.open || this.stale.size === 0) return;
    this.asked = true;
    requestAnimationFrame(() => {
      this.asked = false;
      const { shown, theme, done } = this.look(), until = performance.now() + SLICE;
      for (const y of this.stale) {
        this.stale.delete(y);
        drawSmall(this.maps[y].canvas, this.cave, y, shown, theme, done);
        if (performance.now() > until) break;
      }
      this.draw();
    });
  }
}
