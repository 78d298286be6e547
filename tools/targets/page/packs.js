"use strict";

// Torches as a data pack that places them, takes them away again, and shows them: as ../../user/packs.py makes it.

const NAMESPACE = "torchplan", LONGEST_FUNCTION = 30_000, LEAST_FORMAT = 15;
const OLD_FOLDER = "functions", NEW_FOLDER = "function", NEW_SINCE = release("1.21"), FIRST_PACK = release("1.18");
const OVERLAY = [release("1.20.3"), release("1.20.6")], OVERLAY_FOLDER = "since_1_20_3";
const DISPLAYS_SINCE = OVERLAY[0]; // block displays show torches from here on, armour stands before

/** Commands at the torches' places: in the dimension by the world's coordinates where the box has a corner, else
 * relative to where they are run. */
class CommandWriter {
  constructor(box) {
    this.corner = box.corner;
    this.dimension = box.corner && (box.dimension || "minecraft:overworld");
  }

  /** The coordinates of a place, as a command has them; with what is added, each has one digit behind the point. */
  where(place, more = null) {
    const told = (number) => (more ? number.toFixed(1) : String(number));
    const moved = place.map((at, axis) => at + (more ? more[axis] : 0));
    if (this.corner) return moved.map((at, axis) => told(at + this.corner[axis])).join(" ");
    return moved.map((at) => `~${at === 0 ? "" : told(at)}`).join(" ");
  }

  inside(command) {
    return this.dimension ? `execute in ${this.dimension} run ${command}` : command;
  }

  /** A command that begins with a condition of `execute`. */
  under(condition) {
    return this.dimension ? `execute in ${this.dimension} ${condition}` : `execute ${condition}`;
  }

  put(torch, state) {
    return this.inside(`setblock ${this.where(placeOfTorch(torch))} ${argumentOf(state)}`);
  }

  /** Puts a block where another is there still. */
  change(place, there, state) {
    const at = this.where(place);
    return this.under(`if block ${at} ${argumentOf(there)} run setblock ${at} ${argumentOf(state)}`);
  }

  /** A shape that glows, so that it is seen through walls: the torch itself, in versions that can display blocks, else
   * a small armour stand. A stand is in the middle of its cell; displays begin at the corner. */
  show(torch, tag, hasDisplays) {
    const [entity, data] = hasDisplays ? displayOf(torch) : STAND;
    const at = this.where(placeOfTorch(torch), hasDisplays ? [0, 0, 0] : [0.5, 0, 0.5]);
    const summoned = `summon ${entity} ${at} {Tags:["${tag}"],Glowing:1b,${data}}`;
    return this.corner ? this.inside(summoned) : `execute align xyz run ${summoned}`;
  }
}

const STAND = ["minecraft:armor_stand", "Marker:1b,Small:1b,NoGravity:1b,Invulnerable:1b"];

/** A torch as a display. */
function displayOf(torch) {
  const [name, props] = stateOfTorch(torch);
  const inner = [...props].map(([key, value]) => `,Properties:{${key}:"${value}"}`).join("");
  return ["minecraft:block_display", `block_state:{Name:"${name}"${inner}},brightness:{sky:15,block:15}`];
}

/** What the shapes that are shown are tagged by, so that no other cave's are hidden with them. */
const tagOf = (box) => `${NAMESPACE}.${plainNameOfCave(box.name)}`;

/** The commands of the functions that are alike in all versions. */
function placed(box, plan) {
  const writer = new CommandWriter(box);
  const place = plan.torches.map((torch) => writer.put(torch, stateOfTorch(torch)));
  return { place, hide: [`kill @e[tag=${tagOf(box)}]`] };
}

/** The commands of the functions that differ by version, for games from that release on: what puts back the blocks that
 * stood by the torches' places before, and what shows the places. */
function changing(box, before, since) {
  const writer = new CommandWriter(box), tag = tagOf(box);
  const version = Math.max(since ? since.dataVersion : 0, box.dataVersion || 0);
  const renamed = ([name, props]) => [version ? nameIn(version, name) : name, props];
  const hasDisplays = version >= DISPLAYS_SINCE.dataVersion;
  return {
    undo: before.map(([torch, state]) => writer.change(placeOfTorch(torch), stateOfTorch(torch), renamed(state))),
    show: [`kill @e[tag=${tag}]`, ...before.map(([torch]) => writer.show(torch, tag, hasDisplays))],
  };
}

const partsOf = (commands) => Math.max(1, Math.ceil(commands.length / LONGEST_FUNCTION));

/** The functions for commands: one, or parts and one over them. */
function splitFunction(name, lines, isAbsolute) {
  const count = partsOf(lines);
  if (count === 1) return [[name, lines]];
  const found = Array.from({ length: count }, (_, part) =>
    [`${name}/${part + 1}`, lines.slice(part * LONGEST_FUNCTION, (part + 1) * LONGEST_FUNCTION)]);
  if (isAbsolute) {
    found.push([name, found.map(([part], at) => `schedule function ${NAMESPACE}:${part} ${at + 1}t`)]);
  } else {
    const run = `run ${NAMESPACE}:${name}/1 to ${NAMESPACE}:${name}/${count}`;
    const text = `Too long for one function: ${run} at the same corner`;
    found.push([name, [`tellraw @a ${jsonOf({ text }, ", ", ": ")}`]]);
  }
  return found;
}

/** The text of each function by its name, under the cave's own name. */
function functionsOf(box, commands) {
  const named = (name) => `${plainNameOfCave(box.name)}/${name}`, isAbsolute = box.corner !== null;
  const all = Object.entries(commands).flatMap(([name, lines]) => splitFunction(named(name), lines, isAbsolute));
  return new Map(all.map(([name, lines]) => [name, lines.map((line) => `${line}\n`).join("")]));
}

/** What pack.mcmeta says: for which versions the pack is, and what it is. */
function packMeta(box, hasOverlay) {
  const own = releaseOf(box.dataVersion) || FIRST_PACK;
  const formats = (first, last) =>
    [{ min_inclusive: first, max_inclusive: last }, { min_format: first, max_format: last }];
  const [old, now] = formats(Math.min(FIRST_PACK.packFormat, own.packFormat), LATEST.packFormat);
  const pack = {
    pack_format: Math.max(LEAST_FORMAT, own.packFormat),
    description: box.name ? `Torches for ${box.name}` : "Torches",
    supported_formats: old,
    ...now,
  };
  if (!hasOverlay) return { pack };
  const [older, later] = formats(...OVERLAY.map((one) => one.packFormat));
  return { pack, overlays: { entries: [{ directory: OVERLAY_FOLDER, formats: older, ...later }] } };
}

/** JSON as Python prints it with an indent of two. */
function indented(value, margin = "") {
  const inner = `${margin}  `;
  const lines = Array.isArray(value)
    ? value.map((one) => indented(one, inner))
    : value !== null && typeof value === "object"
      ? Object.entries(value).map(([key, one]) => `${jsonOf(key)}: ${indented(one, inner)}`)
      : null;
  if (lines === null) return jsonOf(value);
  const [open, close] = Array.isArray(value) ? "[]" : "{}";
  return `${open}\n${lines.map((line) => inner + line).join(",\n")}\n${margin}${close}`;
}

/** The files of the pack: their texts by their names. */
function packFiles(box, plan) {
  const before = plan.torches.map((torch) => [torch, replacedBy(box, torch)]);
  const alike = functionsOf(box, placed(box, plan));
  const changed = (since) => functionsOf(box, changing(box, before, since));
  const [old, between, now] = [null, OVERLAY[0], NEW_SINCE].map(changed);
  const found = new Map();
  const under = (folder, functions) =>
    functions.forEach((text, name) => found.set(`${folder}/${name}.mcfunction`, text));
  for (const [folder, own] of [[OLD_FOLDER, old], [NEW_FOLDER, now]]) {
    under(`data/${NAMESPACE}/${folder}`, alike);
    under(`data/${NAMESPACE}/${folder}`, own);
  }
  const others = new Map([...between].filter(([name, text]) => text !== old.get(name)));
  under(`${OVERLAY_FOLDER}/data/${NAMESPACE}/${OLD_FOLDER}`, others);
  found.set("pack.mcmeta", `${indented(packMeta(box, others.size > 0))}\n`);
  return found;
}

/** A zip of files, their bytes by their names: in order, of one time, so that the same files give one zip. */
async function zipOf(files) {
  const names = [...files.keys()].sort(byCharacters), parts = [], central = [];
  let place = 0;
  for (const name of names) {
    const bytes = files.get(name), squeezed = await deflated(bytes), path = utf8(name);
    const head = new DataView(new ArrayBuffer(26));
    // version 2.0, flags (a name in UTF-8 where it isn't ASCII), deflated, 1980-01-01 00:00:00
    [20, path.length === name.length ? 0 : 0x800, 8, 0, 0x21].forEach((word, at) => head.setUint16(2 * at, word, true));
    [crc32(bytes), squeezed.length, bytes.length].forEach((word, at) => head.setUint32(10 + 4 * at, word, true));
    head.setUint16(22, path.length, true);
    const known = new Uint8Array(head.buffer);
    parts.push(Uint8Array.of(0x50, 0x4b, 3, 4), known, path, squeezed);
    const tail = new DataView(new ArrayBuffer(14));
    tail.setUint32(6, (0o644 << 16) >>> 0, true); // the file's mode
    tail.setUint32(10, place, true);
    // made by Unix, version 2.0
    central.push(Uint8Array.of(0x50, 0x4b, 1, 2, 20, 3), known, new Uint8Array(tail.buffer), path);
    place += 4 + known.length + path.length + squeezed.length;
  }
  const list = joined(central), end = new DataView(new ArrayBuffer(22));
  end.setUint32(0, 0x06054b50, true);
  [names.length, names.length].forEach((word, at) => end.setUint16(8 + 2 * at, word, true));
  end.setUint32(12, list.length, true);
  end.setUint32(16, place, true);
  return joined([...parts, list, new Uint8Array(end.buffer)]);
}

/** The bytes of NAME-torches.zip. */
async function packOf(box, plan) {
  return zipOf(new Map([...packFiles(box, plan)].map(([name, text]) => [name, utf8(text)])));
}
