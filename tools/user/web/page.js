// The page: what is shown, and what keys, buttons and the printer do.

const PAPER_WIDTH = 640; // pixels of the page to which a layer is printed
const byId = (id) => document.getElementById(id);
const cave = caveOf(JSON.parse(byId("data").textContent));
const canvas = byId("picture");
const ticks = new Ticks(cave.key, cave.torches.length);
const lightScheme = matchMedia("(prefers-color-scheme: light)");
const state = { y: 0, chosen: null, cell: null, image: null, asked: false };

const theme = () => (lightScheme.matches ? THEMES.light : THEMES.dark);
const shown = () => ({ light: byId("light").checked, dark: byId("dark").checked, below: byId("below").checked });
const marks = () => ({ done: ticks.done, chosen: state.chosen, cell: state.cell });

/** The layer that is shown first: the one with most torches, or else with most dark cells. */
function firstLayer() {
  const counts = Array.from({ length: cave.tall }, (_, y) => cave.inLayer(y).length * 1e6);
  cave.dark.forEach((isDark, cell) => (counts[Math.floor(cell / (cave.wide * cave.deep))] += isDark));
  return Math.max(0, counts.indexOf(Math.max(...counts)));
}

/** Draws at the next frame. */
function redraw(isNew = false) {
  if (isNew) state.image = null;
  if (state.asked) return;
  state.asked = true;
  requestAnimationFrame(() => {
    state.asked = false;
    draw();
  });
}

function draw() {
  const ratio = window.devicePixelRatio || 1, width = canvas.clientWidth, height = canvas.clientHeight;
  if (canvas.width !== Math.round(width * ratio) || canvas.height !== Math.round(height * ratio)) {
    canvas.width = Math.round(width * ratio);
    canvas.height = Math.round(height * ratio);
  }
  state.image = state.image || layerImage(cave, state.y, shown(), theme());
  const context = canvas.getContext("2d");
  context.setTransform(ratio, 0, 0, ratio, 0, 0);
  drawLayer(context, cave, state.y, state.image, view, width, height, shown(), theme(), marks());
}

function layerName(y) {
  return cave.corner === null ? `Layer ${y}` : `Layer ${y} (y ${signed([cave.worldly(1, y)])})`;
}

/** Shows a layer. The list follows, unless it would move the overview away from under the pointer. */
function goTo(y, isFollowed = true) {
  state.y = Math.min(cave.tall - 1, Math.max(0, y));
  byId("layer").value = state.y;
  byId("layer").setAttribute("aria-valuetext", layerName(state.y));
  const count = cave.inLayer(state.y).length;
  const told = count === 0 ? "no torch" : counted(count, "torch");
  const small = element("small", { textContent: `of ${cave.tall} · ${told}` });
  byId("height").replaceChildren(layerName(state.y), small);
  overview.mark(state.y);
  canvas.setAttribute("aria-label", `Map of ${layerName(state.y)}: ${told}`);
  tell(state.cell);
  if (isFollowed && (state.chosen === null || state.chosen.y !== state.y)) list.follow(state.y);
  redraw(true);
}

function choose(torch) {
  state.chosen = torch;
  if (torch.y !== state.y) goTo(torch.y);
  view.show(torch);
  list.reveal(torch);
  tell(torch);
  update();
}

/** The next torch of the list, or the one before. */
function step(by) {
  const count = cave.torches.length;
  if (count === 0) return;
  const from = state.chosen ? state.chosen.index : by > 0 ? -1 : count;
  choose(cave.torches[(from + by + count) % count]);
}

/** Says what is in a cell of the layer. */
function tell(cell) {
  if (!cell) {
    byId("cell").replaceChildren(element("i", { textContent: "Point at a cell, or choose a torch." }));
    return;
  }
  const at = { x: cell.x, y: state.y, z: cell.z }, { first, second } = placeOf(cave, at);
  const block = cave.stateAt(at.x, at.y, at.z), torch = cave.torchAt(at.x, at.y, at.z);
  const number = cave.number(at.x, at.y, at.z);
  const told = [block === null ? "nothing saved" : block.name];
  if (torch) told.unshift(`torch ${torch.index + 1} ${torch.words}`);
  if (block !== null) told.push(`light ${cave.levels[number]}`);
  if (cave.dark[number]) told.push("dark before");
  const box = element("span", { className: "box", textContent: second && ` ${second}` });
  byId("cell").replaceChildren(element("b", { textContent: first }), box, ` · ${told.join(" · ")}`);
}

/** Ticks the torch that is chosen, or takes its tick away. */
function tickChosen() {
  if (state.chosen !== null) tick(state.chosen, !ticks.done.has(state.chosen.index));
}

function tick(torch, isDone) {
  ticks.set(torch.index, isDone);
  overview.renew([torch.y]);
  update();
}

/** Shows how far one is. */
function update() {
  const all = cave.torches.length, done = ticks.done.size;
  byId("placed").textContent = all === 0 ? "Nothing to place" : `${done} of ${all} placed`;
  byId("carry").textContent = all === 0 ? "" : done === all ? "all done" : `carry ${counted(all - done, "torch")}`;
  byId("bar").max = Math.max(1, all);
  byId("bar").value = done;
  byId("steps").hidden = all === 0;
  byId("here").disabled = state.chosen === null;
  byId("here").textContent = state.chosen !== null && ticks.done.has(state.chosen.index) ? "Not placed" : "Placed";
  list.update(ticks.done, state.chosen);
  for (const mark of byId("marks").children) {
    const inLayer = cave.inLayer(Number(mark.dataset.y));
    mark.classList.toggle("done", inLayer.every((torch) => ticks.done.has(torch.index)));
  }
  redraw();
}

/** Shows all anew: the ticks, the map and the overview. */
function renew() {
  update();
  redraw(true);
  overview.renew();
}

/** Small bars over the slider: the layers that have torches, and how many. */
function drawMarks() {
  const most = Math.max(1, ...cave.torches.map((torch) => cave.inLayer(torch.y).length));
  for (const y of new Set(cave.torches.map((torch) => torch.y))) {
    const mark = element("i");
    mark.dataset.y = y;
    mark.style.left = `${cave.tall === 1 ? 50 : (100 * y) / (cave.tall - 1)}%`;
    mark.style.height = `${4 + (10 * cave.inLayer(y).length) / most}px`;
    byId("marks").append(mark);
  }
}

function tellFacts() {
  const total = cave.total === undefined ? cave.torches.length : cave.total, away = (cave.away || []).length;
  const facts = [[counted(total, "torch")], [counted(cave.darkCount, "dark cell"), " before"]];
  if (away > 0 || total > cave.torches.length) facts.push([`take away ${away}, place ${cave.torches.length}`]);
  facts.push([cave.size.join(" × "), " cells"]);
  if (cave.corner !== null) {
    const place = (cave.dimension || "").replace("minecraft:", "").replaceAll("_", " ");
    facts.push([signed(cave.corner), ` is the corner${place && `, ${place}`}`]);
  }
  for (const [strong, rest = ""] of facts) byId("facts").append(element("span", {}, element("b", {}, strong), rest));
  const least = `at least ${cave.atLeast} ${cave.atLeast === 1 ? "is" : "are"} needed; more time may find fewer`;
  const proved = cave.atLeast !== null ? least : cave.verdict === null ? "" : "proved: no fewer do";
  if (proved) byId("facts").append(element("span", { className: "proved", textContent: proved }));
  byId("notes").append(...(cave.notes || []).map((note) => element("li", { textContent: note })));
  byId("notes").hidden = byId("notes").childElementCount === 0;
}

function drawSigns() {
  byId("signs").replaceChildren(...legendOf(cave, theme()));
}

/** A layer as a picture of its own, with that many of its pixels to one of the page. */
function sheetOf(y, look, colours, scale, ratio) {
  const side = leftRuler(cave), wide = cave.wide * scale + side + 4, tall = cave.deep * scale + RULER + 4;
  const sheet = element("canvas", { width: wide * ratio, height: tall * ratio });
  sheet.style.width = `${wide}px`;
  const context = sheet.getContext("2d"), image = layerImage(cave, y, look, colours);
  const still = { done: ticks.done, chosen: null, cell: null };
  context.scale(ratio, ratio);
  drawLayer(context, cave, y, image, { scale, left: side, top: RULER }, wide, tall, look, colours, still);
  return sheet;
}

/** What is printed: each layer that has torches, and the list. */
function drawSheets() {
  const heights = [...new Set(cave.torches.map((torch) => torch.y))];
  const scale = Math.min(24, PAPER_WIDTH / cave.wide);
  byId("sheets").replaceChildren(...heights.map((y) => {
    const words = `${layerName(y)}: ${counted(cave.inLayer(y).length, "torch")}`;
    const sheet = sheetOf(y, { light: false, dark: true, below: false }, THEMES.print, scale, 2);
    return element("figure", {}, element("figcaption", { textContent: words }), sheet);
  }));
}

/** Saves the layer as it is shown, whole. */
function savePicture() {
  const scale = Math.max(6, Math.min(32, Math.floor(1800 / Math.max(cave.wide, cave.deep))));
  sheetOf(state.y, shown(), theme(), scale, 2).toBlob((blob) => {
    const link = element("a", { href: URL.createObjectURL(blob), download: `torches-layer-${state.y}.png` });
    link.click();
    setTimeout(() => URL.revokeObjectURL(link.href), 10000);
  });
}

/** Zooms about the torch that is chosen, or else about the middle. */
function zoom(factor) {
  const { chosen } = state;
  if (chosen === null || chosen.y !== state.y) view.zoom(factor);
  else view.zoom(factor, view.left + (chosen.x + 0.5) * view.scale, view.top + (chosen.z + 0.5) * view.scale);
  if (chosen !== null && chosen.y === state.y) view.show(chosen);
}

function pressed(event) {
  if (event.altKey || event.ctrlKey || event.metaKey) return;
  const onSlider = event.target === byId("layer"), onButton = event.target.closest("button, summary") !== null;
  const keys = {
    ArrowUp: () => goTo(state.y + 1), ArrowDown: () => goTo(state.y - 1),
    PageUp: () => goTo(state.y + 8), PageDown: () => goTo(state.y - 8),
    ArrowRight: () => step(1), ArrowLeft: () => step(-1),
    "+": () => zoom(1.3), "=": () => zoom(1.3), "-": () => zoom(1 / 1.3), 0: () => view.fit(),
    Enter: tickChosen,
  };
  if (!(event.key in keys) || (event.key === "Enter" && onButton)) return;
  const scrolls = /^(Arrow(Up|Down)|Page(Up|Down))$/.test(event.key);
  if (scrolls && event.target.closest("aside") !== null) return; // the list scrolls by them
  if (onSlider && event.key.startsWith("Page")) return;
  if (onSlider && event.key.startsWith("Arrow")) return; // the slider does it itself
  event.preventDefault();
  keys[event.key]();
}

const view = new View(canvas, cave, {
  changed: () => redraw(),
  over: (cell) => {
    state.cell = cell;
    tell(cell || (state.chosen && state.chosen.y === state.y ? state.chosen : null));
    redraw();
  },
  tapped: (cell, px, py) => {
    const torch = nearest(cave.inLayer(state.y), view, px, py);
    state.cell = cell;
    if (torch) choose(torch);
    else tell(cell);
    redraw();
  },
});
const overview = new Overview(byId("overview"), byId("maps"), cave, {
  name: (y) => (cave.corner === null ? `Layer ${y}` : `y ${signed([cave.worldly(1, y)])}`),
  look: () => ({ shown: shown(), theme: theme(), done: ticks.done }),
  goTo: (y) => goTo(y, false),
});
const list = new List(byId("list"), canvas.closest("section"), cave, { ticked: tick, chosen: choose });

function listen() {
  byId("layer").addEventListener("input", () => goTo(Number(byId("layer").value)));
  byId("lower").addEventListener("click", () => goTo(state.y - 1));
  byId("higher").addEventListener("click", () => goTo(state.y + 1));
  byId("nearer").addEventListener("click", () => zoom(1.5));
  byId("farther").addEventListener("click", () => zoom(1 / 1.5));
  byId("whole").addEventListener("click", () => view.fit());
  byId("previous").addEventListener("click", () => step(-1));
  byId("next").addEventListener("click", () => step(1));
  byId("here").addEventListener("click", tickChosen);
  byId("save").addEventListener("click", savePicture);
  byId("print").addEventListener("click", () => window.print());
  byId("clear").addEventListener("click", () => {
    if (!window.confirm("Untick all torches?")) return;
    ticks.clear();
    renew();
  });
  for (const id of ["light", "dark", "below"]) byId(id).addEventListener("change", renew);
  document.addEventListener("keydown", pressed);
  window.addEventListener("beforeprint", drawSheets);
  window.addEventListener("afterprint", () => byId("sheets").replaceChildren());
  window.addEventListener("storage", () => {
    ticks.read();
    renew();
  });
  lightScheme.addEventListener("change", () => {
    drawSigns();
    renew();
  });
  new ResizeObserver(() => (view.isFitted ? view.fit() : redraw())).observe(canvas);
}

byId("layer").max = cave.tall - 1;
byId("clear").hidden = byId("bar").hidden = cave.torches.length === 0;
tellFacts();
drawMarks();
drawSigns();
listen();
goTo(firstLayer());
update();
