"use strict";

// Of all plans with the same number of torches one with a bright light, as ../../user/brightening.py finds it: torches
// are moved one by one to where they stand better, while all cells stay lit. Better is, in each region: the darkest
// cell brighter, else more light in all. It tries the same moves in the same order, so that both find the same plan.

const MOVED_STEPS = 4; // the most steps that a torch moves at once
const MOVES = 20_000; // how many places are tried in all
const REACH = TORCH_EMISSION - 1; // the most steps that light of a torch goes

/** Whether two torches, one of which may move, may light cells of one window. */
const areNear = (one, other) => one.every((at, axis) => Math.abs(at - other[axis]) <= 2 * REACH + MOVED_STEPS);

/** Whether a row of numbers is more than another: by the first that differs. */
function isMore(one, other) {
  const at = one.findIndex((number, index) => number !== other[index]);
  return at >= 0 && one[at] > other[at];
}

/** Dark cells that torches light together. A lamp is where a torch stands, and which level it brings to each of the
 * cells that it lights, by the cell's index. */
class TorchRegion {
  /** `base` has the level of each cell of the box without new torches. */
  constructor(field, base, cells, torches) {
    this.field = field;
    this.cells = cells.map((number) => field.box.position(number));
    this.base = Uint8Array.from(cells, (number) => base[number]);
    this.indices = new Map(cells.map((number, index) => [field.place(number), index]));
    this.levels = new Uint8Array(field.costs.length); // of one torch, while it spreads
    this.lamps = torches.map((at) => this.lamp(at));
  }

  lamp(at) {
    return { at, levels: this.spread(at) };
  }

  /** The level that a torch there brings to each of the cells that it lights. */
  spread(at) {
    const { costs, steps, box } = this.field, { levels, indices } = this, found = new Map();
    const first = this.field.place(box.number(...at)), rounds = Array.from({ length: TORCH_EMISSION + 1 }, () => []);
    const reached = [first];
    levels[first] = TORCH_EMISSION;
    rounds[TORCH_EMISSION].push(first);
    for (let level = TORCH_EMISSION; level > 1; level -= 1) {
      for (const from of rounds[level]) {
        if (levels[from] !== level) continue;
        for (const step of steps) {
          const other = from + step, brought = level - costs[other];
          if (brought <= levels[other]) continue;
          levels[other] = brought;
          rounds[brought].push(other);
          reached.push(other);
        }
      }
    }
    for (const place of reached) {
      const index = levels[place] ? indices.get(place) : undefined;
      if (index !== undefined) found.set(index, levels[place]);
      levels[place] = 0;
    }
    return found;
  }

  /** The light of the cells but for one torch, of which those near its place are asked (of all for null). */
  others(index, at) {
    const found = this.base.slice();
    this.lamps.forEach((lamp, place) => {
      if (place === index || (at !== null && !areNear(lamp.at, at))) return;
      for (const [cell, level] of lamp.levels) found[cell] = Math.max(found[cell], level);
    });
    return found;
  }

  /** Which cells lie in a window about a place. */
  inside(at) {
    const isNear = (cell) => cell.every((place, axis) => Math.abs(place - at[axis]) <= REACH + MOVED_STEPS);
    return this.cells.flatMap((cell, index) => (isNear(cell) ? [index] : []));
  }

  /** How many cells have at least each level, 0 to 15. */
  counts() {
    return countsOf(this.others(null, null));
  }
}

/** How many of the levels are at least each level, 0 to 15. */
function countsOf(levels) {
  const counts = new Array(BRIGHTEST + 1).fill(0);
  for (const level of levels) counts[level] += 1;
  for (let level = BRIGHTEST; level > 0; level -= 1) counts[level - 1] += counts[level];
  return counts;
}

/** What a region's light is worth: the level of its darkest cell, then all light together. */
const worth = (counts) => [counts.lastIndexOf(counts[0]), counts.reduce((sum, count) => sum + count, 0)];

/** The same, but where the darkest cell is no brighter, fewer that are as dark count more than light: a way to plans in
 * which it is. */
function worthByFew(counts) {
  const [least, light] = worth(counts);
  return [least, least < BRIGHTEST ? counts[least + 1] : 0, light];
}

/** The moves of the torches of one region. */
class TorchSearch {
  constructor(region, hangs, need, work) {
    Object.assign(this, { region, hangs, need, work });
    this.counts = region.counts();
  }

  /** Moves the torches in two ways, and leaves them where the light is worth more. */
  best() {
    const first = [...this.region.lamps];
    this.run(worth);
    const straight = this.region.lamps, found = worth(this.counts);
    this.region.lamps = first;
    this.counts = this.region.counts();
    this.run(worthByFew);
    this.run(worth);
    if (!isMore(worth(this.counts), found)) this.region.lamps = straight;
  }

  /** Moves torches until none stands better elsewhere, by what light is worth. */
  run(worthOf) {
    const { lamps } = this.region, waiting = lamps.map((_, index) => index);
    while (waiting.length > 0 && this.work > 0) {
      const index = waiting.shift(), before = lamps[index].at;
      if (!this.moved(index, worthOf)) continue;
      lamps.forEach((lamp, place) => {
        if (areNear(lamp.at, before) && !waiting.includes(place)) waiting.push(place);
      });
    }
  }

  /** Moves a torch to the best place near it; whether there was a better one. */
  moved(index, worthOf) {
    const { region } = this, lamp = region.lamps[index], inside = region.inside(lamp.at);
    const others = region.others(index, lamp.at);
    const lit = (levels) => inside.map((cell) => Math.max(others[cell], levels.get(cell) || 0));
    const now = countsOf(lit(lamp.levels)), rest = this.counts.map((count, level) => count - now[level]);
    let best = worthOf(this.counts), counts = this.counts, place = null;
    for (const at of this.places(lamp.at)) {
      this.work -= 1;
      const seen = countsOf(lit(region.spread(at)));
      if (seen[this.need] < inside.length) continue;
      const found = rest.map((count, level) => count + seen[level]);
      if (isMore(worthOf(found), best)) [best, counts, place] = [worthOf(found), found, at];
    }
    if (place === null) return false;
    region.lamps[index] = region.lamp(place);
    this.counts = counts;
    return true;
  }

  /** The places near one that can have a torch. */
  places([x, y, z]) {
    const { box } = this.region.field, found = [];
    const taken = new Set(this.region.lamps.map(({ at }) => box.number(...at)));
    for (let up = -MOVED_STEPS; up <= MOVED_STEPS; up += 1) {
      const wide = MOVED_STEPS - Math.abs(up);
      for (let south = -wide; south <= wide; south += 1) {
        const left = wide - Math.abs(south);
        for (let east = -left; east <= left; east += 1) {
          const at = [x + east, y + up, z + south], number = box.number(...at);
          if (box.has(...at) && this.hangs.has(number) && !taken.has(number)) found.push(at);
        }
      }
    }
    return found;
  }
}

/** Where the torches of regions stand better: the new torch by the number of each that moves. `base` has the level of
 * each cell without them; a region is told by the numbers of its dark cells and of its torches. */
function brightened(box, rows, base, regions, need) {
  const field = new Field(box, rows), hangs = hangsOf(box, rows), moved = new Map();
  let work = MOVES;
  for (const [cells, torches] of regions) {
    const region = new TorchRegion(field, base, cells, torches.map((number) => box.position(number)));
    const search = new TorchSearch(region, hangs, need, work);
    search.best();
    work = search.work;
    torches.forEach((number, index) => {
      const [x, y, z] = region.lamps[index].at, now = box.number(x, y, z);
      if (now !== number) moved.set(number, { x, y, z, hang: hangs.get(now) });
    });
  }
  return moved;
}
