// The list of torches, which are ticked off as they are placed. The browser keeps the ticks.

class Ticks {
  /** The ticks of a plan, kept under its key. Where the browser keeps nothing they last as long as the page. */
  constructor(key, count) {
    Object.assign(this, { key, count });
    this.done = new Set();
    this.read();
  }

  read() {
    try {
      const kept = JSON.parse(localStorage.getItem(this.key)) || [];
      this.done = new Set(kept.filter((index) => Number.isInteger(index) && index >= 0 && index < this.count));
    } catch {
      // nothing is kept, or something else
    }
  }

  set(index, isDone) {
    if (isDone) this.done.add(index);
    else this.done.delete(index);
    this.keep();
  }

  clear() {
    this.done.clear();
    this.keep();
  }

  keep() {
    try {
      localStorage.setItem(this.key, JSON.stringify([...this.done].sort((a, b) => a - b)));
    } catch {
      // the ticks last as long as the page
    }
  }
}

/** An element with a text and children. */
function element(tag, properties = {}, ...inside) {
  const made = Object.assign(document.createElement(tag), properties);
  made.append(...inside);
  return made;
}

const signed = (numbers) => numbers.map((number) => String(number).replace("-", "−")).join(" ");

/** A number of things, each of which is called so. */
function counted(count, one) {
  return `${count.toLocaleString("en-GB")} ${one}${count === 1 ? "" : one.endsWith("h") ? "es" : "s"}`;
}

/** Where a torch is: in the world where that is known, and in the box. */
function placeOf(cave, { x, y, z }) {
  const box = signed([x, y, z]);
  if (cave.corner === null) return { first: box, second: "" };
  return { first: signed([0, 1, 2].map((axis) => cave.worldly(axis, [x, y, z][axis]))), second: `· box ${box}` };
}

/** The torches, in their order, by parts that lie in one layer each. */
function runsOfLayers(torches) {
  const runs = [];
  for (const torch of torches) {
    if (runs.length > 0 && runs[runs.length - 1][0].y === torch.y) runs[runs.length - 1].push(torch);
    else runs.push([torch]);
  }
  return runs;
}

class List {
  /** The list in that element, beside the map. `ticked` is called with a torch and whether it is done, `chosen` with a
   * torch. */
  constructor(holder, map, cave, { ticked, chosen }) {
    Object.assign(this, { holder, map, cave, ticked, chosen });
    this.items = [];
    this.heads = [];
    const apart = cave.torches.length - (cave.apart || 0);
    holder.append(...this.takenAway(), ...this.runs(cave.torches.slice(0, apart)));
    if (cave.apart) holder.append(element("h2", { className: "apart", textContent: "Where nobody gets to on foot" }));
    holder.append(...this.runs(cave.torches.slice(apart)));
    if (cave.torches.length > 0) return;
    holder.append(element("p", { textContent: cave.total ? "" : "No torch is needed." }));
  }

  /** The torches that stand there and are taken away. */
  takenAway() {
    const away = this.cave.away || [];
    if (away.length === 0) return [];
    const told = (x, y, z) => placeOf(this.cave, { x, y, z }).first;
    const places = away.map((at) => element("li", { className: "away", textContent: told(...at) }));
    const head = element("h2", {}, element("span", { textContent: `Take away ${away.length}` }));
    return [head, element("ol", {}, ...places)];
  }

  runs(torches) {
    return runsOfLayers(torches).flatMap((run) => this.run(run));
  }

  /** A part of the walk that stays in one layer. */
  run(torches) {
    const { y } = torches[0], world = this.cave.corner === null ? "" : ` (y ${signed([this.cave.worldly(1, y)])})`;
    const left = element("span");
    this.heads.push({ torches, left });
    const head = element("h2", {}, element("span", { textContent: `Layer ${y}${world}` }), left);
    return [head, element("ol", {}, ...torches.map((torch) => this.item(torch)))];
  }

  item(torch) {
    const { first, second } = placeOf(this.cave, torch);
    const box = element("input", { type: "checkbox" });
    box.setAttribute("aria-label", `Torch ${torch.index + 1} is placed`);
    box.addEventListener("change", () => this.ticked(torch, box.checked));
    const small = element("small", {}, `${torch.words} `, element("span", { className: "box", textContent: second }));
    const button = element("button", { type: "button" }, `${torch.index + 1}. ${first}`, small);
    button.addEventListener("click", () => this.chosen(torch));
    const item = element("li", {}, box, button);
    this.items[torch.index] = { item, box, button };
    return item;
  }

  /** Shows what is done, and which torch is chosen. */
  update(done, chosen) {
    this.items.forEach(({ item, box }, index) => {
      box.checked = done.has(index);
      item.classList.toggle("done", done.has(index));
      item.classList.toggle("chosen", chosen !== null && chosen.index === index);
    });
    for (const { torches, left } of this.heads) {
      left.textContent = `${torches.filter((torch) => done.has(torch.index)).length} of ${torches.length}`;
    }
  }

  /** Brings the first torch of a layer into sight. */
  follow(y) {
    const torch = this.cave.torches.find((torch) => torch.y === y);
    if (torch !== undefined) this.reveal(torch);
  }

  /** Brings a torch's line into sight, within the list alone. */
  reveal(torch) {
    const { item } = this.items[torch.index], scroller = item.closest("aside");
    const line = item.getBoundingClientRect(), room = scroller.getBoundingClientRect();
    if (scroller.scrollHeight <= scroller.clientHeight) this.revealBelow(line);
    else if (line.top < room.top || line.bottom > room.bottom) {
      scroller.scrollTop += line.top - room.top - room.height / 2;
    }
  }

  /** Brings a line into sight below the map, on a phone, where the map stays as the page scrolls: once the list is
   * there. */
  revealBelow(line) {
    const top = this.map.getBoundingClientRect().bottom, bottom = window.innerHeight;
    const isListSeen = top < bottom && this.holder.getBoundingClientRect().top < bottom - 2 * line.height;
    if (isListSeen && (line.top < top || line.bottom > bottom)) window.scrollBy(0, line.top - (top + bottom) / 2);
  }
}
