"use strict";

// The way from a file to its plan, as `light` goes it (../../user/planning.py, answers.py): the program tells the dark
// cells, plans, and checks the proof in an instance of its own; torches are moved; then the files are made.

const DONE = 0, REJECTED = 4, STOPPED = 5;
const WORK = 4_000_000, MOST_TURNS = 1_000_000; // of answers.py
const NEEDED_LEVEL = { "1.18": 1, "1.17": 8 };
const ENDINGS = [".gz", ".nbt", ".schem", ".litematic"];
const MADE_CAVE = "the cave as it was planned, a packed structure file; plan.proof is of this cave";
const EDGE = "torchplan: free cells lie at the box's edge: ";
// Turns a region where a search went deeper than the engine's stack, or took more memory than there is.
const FEWER_TURNS = [100, 10, 1];

/** What a cave of that file is called. */
function nameOfFile(name) {
  const hasMore = (found, ending) => found.endsWith(ending) && found !== ending;
  return ENDINGS.reduce((found, ending) => (hasMore(found, ending) ? found.slice(0, -ending.length) : found), name);
}

/** The cave of a file: its box, or null where only the program can say what is wrong; the structure file that the
 * program reads; what it is called; whether that structure file was made here; the larger box about it, which only a
 * box of a world has; and what has to be known of it, in lines. */
async function caveOfFile(file, bytes) {
  const name = nameOfFile(file), wrong = wrongFile(file, bytes);
  if (wrong !== null) throw new Refusal(wrong);
  const data = await plain(bytes);
  let root = null;
  try {
    root = rootOf(data, new Set([...NO_STRUCTURE, ...NO_BLOCKS]));
  } catch (fault) {
    if (!isDamage(fault)) throw fault;
    return caveAs(null, data, name, false);
  }
  return caveOfRoot(root, data, name);
}

const caveAs = (box, data, name, isMade) => ({ box, data, name, isMade, around: null, notes: [] });

/** The cave of a file by its root. */
function caveOfRoot(root, data, name) {
  const wrong = wrongRoot(root);
  if (wrong !== null) throw new Refusal(wrong);
  const made = (box) => caveAs(box, boxFile(box), name, true);
  if (isLitematic(root)) return made(readLitematic(root, name));
  const schematic = spongeOf(root);
  if (schematic !== null) return made(readSponge(schematic, name));
  try {
    return caveAs(structureOfRoot(root, name), data, name, false);
  } catch (fault) {
    if (!isDamage(fault)) throw fault;
    return caveAs(null, data, name, false);
  }
}

/** How many turns a region gets, unless told. */
const turnsFor = (dark) => Math.min(Math.floor(WORK / Math.max(1, dark)), MOST_TURNS);

/** The program over a cave's files. `hear` gets each line of standard error. */
class Planner {
  constructor(module, files, options, hear) {
    Object.assign(this, { module, files, options, hear });
  }

  /** What a command answers, and the lines that it said. The statuses that are well are told. */
  async run(command, words, well) {
    const lines = [];
    let rest = "";
    const hear = (text) => {
      const parts = (rest + text).split("\n");
      rest = parts.pop();
      for (const line of parts) {
        lines.push(line);
        this.hear(line);
      }
    };
    const read = (name) => this.files.get(name) || null;
    const ended = await runProgram(this.module, [command, ...words, ...this.options], { read, hear });
    if (!well.includes(ended.status)) throw refusalOf(ended.status, lines.pop() || "");
    return { ...ended, lines, text: new TextDecoder().decode(ended.output) };
  }
}

/** The sentence for a status that leaves no plan, by the program's line. */
function refusalOf(status, line) {
  const unknown = /^torchplan: unknown block (.*)$/.exec(line);
  if (unknown) return new Refusal(`The table of blocks doesn't know ${unknown[1]}. Add a row for it.`, line);
  if (/^torchplan: table/.test(line)) return new Refusal("The table of blocks isn't one that the program takes.", line);
  if (/^torchplan: nbt:/.test(line)) {
    return new Refusal("This is no structure file as Minecraft's Java Edition saves it, or it is damaged.", line);
  }
  const sentences = {
    1: "The program refuses this file.",
    3: "No torch can light one of the dark cells, and this page doesn't read the cave. Put a slab there.",
    4: "The check doesn't accept the proof, so nothing is shown. Please report this cave.",
    7: "The plan takes more memory than this browser gives a page. Save a smaller part, or use the program.",
  };
  return new Refusal(sentences[status] || "The program ended in an unexpected way.", line || `status ${status}`);
}

/** Whether the engine itself ended the program: its stack or its memory didn't suffice. */
const isOfEngine = (error) => error instanceof RangeError || error instanceof WebAssembly.RuntimeError;

/** The plan, with as many turns as told; with fewer where the search went deeper than the engine's stack allows. */
async function planDeep(planner, words, turns, tell) {
  const limits = [turns, ...FEWER_TURNS.filter((fewer) => turns === null || fewer < turns)];
  for (const limit of limits) {
    try {
      const more = limit === null ? [] : ["--turns", String(limit)];
      return { planned: await planner.run("plan", [...words, ...more], [DONE, STOPPED]), limit };
    } catch (error) {
      if (!isOfEngine(error)) throw error;
      tell({ note: "The search went deeper than this browser's stack; it is planned with fewer turns." });
    }
  }
  throw new Refusal("The search goes deeper than this browser's stack allows. Use the program for this cave.");
}

/** The level of each cell of the planner's cave, by the cells' numbers; with the torches of a plan's bytes where there
 * are any. */
async function levelsOf(planner, plan = null) {
  if (plan !== null) planner.files.set("plan.txt", plan);
  const seen = await planner.run("levels", plan === null ? ["cave.nbt"] : ["cave.nbt", "plan.txt"], [DONE]);
  return readLevels(seen.text);
}

/** The cave of a file, or why it can't be read. */
async function demandCave(file, bytes) {
  try {
    return await caveOfFile(file, bytes);
  } catch (fault) {
    throw isDamage(fault) ? new Refusal(`The file can't be read: ${fault.message}.`) : fault;
  }
}

/** Refuses blocks that no row fits, all at once, with a table that has a row for each. */
function demandRows(box, rows, own) {
  const names = unknownNames(box, rows);
  if (names.length === 0) return;
  const listed = `No table has ${names.length === 1 ? "1 block" : `${grouped(names.length)} blocks`} of the cave`;
  const how = "These lines have a row for each, as full and solid. Look them over, keep them in a file that ends in" +
    " .toml, and choose it as your own blocks.";
  throw new Refusal(`${listed}: ${names.join(", ")}. ${how}`, null, tableForUnknown(names, own).split("\n"));
}

/** The cells that are dark, and what the program says of free cells at the box's edge, or null. */
async function darknessOf(planner, tell) {
  tell({ step: "Looking for dark cells" });
  const seen = await planner.run("dark", ["cave.nbt", "--progress"], [DONE]);
  const edge = seen.lines.find((line) => line.startsWith(EDGE));
  return { dark: readDark(seen.text), edge: edge ? edge.slice(EDGE.length) : null };
}

/** What the program answers of a cave with these dark cells: its plan, and the verdict on the proof, from an instance of
 * its own (null where the search was stopped); and the files that hold these. */
async function answersOf(planner, { dark, edge }, told, tell) {
  tell({ step: `Planning torches for ${grouped(dark.length)} dark cells` });
  const turns = told.isToTheEnd ? null : told.turns || turnsFor(dark.length);
  const words = ["cave.nbt", "--proof", "plan.proof", "--progress"];
  const { planned, limit } = await planDeep(planner, words, turns, tell);
  const { text, output, peak, memory } = planned, files = new Map([["plan.txt", output]]);
  const answers = { dark, edge, plan: readPlan(text), verdict: null, turns: limit, peak, memory, files };
  if (planned.status === DONE) {
    tell({ step: "Checking the proof" });
    planner.files.set("plan.proof", planned.made.get("plan.proof"));
    const checked = await planner.run("check", ["cave.nbt", "plan.proof"], [DONE]);
    answers.verdict = checked.text.trim();
    files.set("plan.proof", planner.files.get("plan.proof")).set("plan.check", checked.output);
  }
  return answers;
}

/** The cave as the planner reads it: a box of a world with its shell, all else as it stands. `read` is the box that is
 * planned, `rows` are those of made names. */
function laidOut(cave, rows, told) {
  if (cave.around === null) return { ...cave, read: cave.box, rows: [] };
  if (rows === null) {
    throw new Refusal("A box of a world takes rows of its own, and this page doesn't read your table: write its rows as" +
      " tables [[row]].");
  }
  return withShell(cave, rows, told.headroom);
}

/** The files of a plan: those that `light` makes, with the table and the answers. */
async function filesOf(cave, answers, table, how, levels, notes) {
  const { plan, dark, verdict, files } = answers, { box } = cave, all = new Map(files);
  how.files = { "table.toml": "the table of blocks that the plan goes by" };
  if (cave.isMade) how.files["cave.nbt"] = MADE_CAVE;
  const walked = { ...plan, torches: inWalkOrder(plan.torches) };
  const made = await filesOfPlan(box, walked, dark, levels, verdict, how, notes);
  if (box.corner !== null) {
    all.set("plan.txt", utf8(withCorner(new TextDecoder().decode(all.get("plan.txt")), box)));
  }
  const own = [["table.toml", utf8(table)], ...(cave.isMade ? [["cave.nbt", await packed(cave.data)]] : [])];
  return new Map([...made, ...all, ...own]);
}

/** Has the program plan a cave. Cells that no torch can light get slabs, and the rest is planned: the cave as it is
 * planned then, its answers, what has to be known of slabs, and the rows and the table's text. */
async function planned(module, found, terms, told, tell) {
  const { table, tableRows, rule } = terms, options = ["--table", "table.toml", "--rule", rule, "--headroom", told.headroom];
  const lines = [];
  for (let cave = laidOut(found, tableRows, told); ; ) {
    const rows = tableRows && [...tableRows, ...cave.rows];
    const text = cave.rows.length > 0 ? withRows(table.text, cave.rows) : table.text;
    const files = new Map([["cave.nbt", cave.data], ["table.toml", utf8(text)]]);
    const planner = new Planner(module, files, options, (line) => tell({ line: line.replace(/^torchplan: /, "") }));
    const darkness = await darknessOf(planner, tell);
    try {
      return { cave, planner, rows, text, lines, answers: await answersOf(planner, darkness, told, tell) };
    } catch (fault) {
      const [, ...at] = UNLIGHTABLE.exec(fault.line || "") || [];
      if (at.length === 0 || cave.box === null) throw fault;
      const need = NEEDED_LEVEL[rule];
      const cells = await cellsForSlabs(planner, cave.read, rows, darkness.dark, need, at.map(Number));
      lines.push(...slabLines(cave.box, cells));
      cave = withSlabs(cave, cells);
    }
  }
}

/** Plans a cave. `told`: rule (null: by the file's version), headroom, table (null, or its name and text), isSteady,
 * turns (null: as `light` has it), isToTheEnd. `tell` gets steps, notes and the program's lines. */
async function planCave(module, found, told, tell) {
  const version = found.box && found.box.dataVersion, rule = ruleFor(told.rule, version);
  const table = chosenTable(version, told.table, told.isSteady), tableRows = rowsOfTable(table.text);
  if (version > LATEST.dataVersion) {
    tell({ note: `The cave is of a later version than ${LATEST.name}: a block that is new is refused by its name.` });
  }
  if (found.box !== null && tableRows !== null) demandRows(found.box, tableRows, told.table && told.table.text);
  const done = await planned(module, found, { table, tableRows, rule }, told, tell);
  const { cave, planner, rows, text, answers } = done, { box, read, name } = cave;
  if (box === null) throw new Refusal("The program reads this file, but this page doesn't.");
  if (rows !== null) tell({ step: "Moving torches to where they shine best" });
  const best = rows === null ? answers : await rearranged(planner, read, rows, NEEDED_LEVEL[rule], answers);
  const { dark, plan, verdict, edge, turns, peak, memory } = best;
  tell({ step: "Drawing the map" });
  const levels = await levelsOf(planner, best.files.get("plan.txt"));
  const notes = [...cave.notes, ...(cave.around === null ? edgeLines(edge, box, tableRows, dark) : []), ...done.lines];
  const how = { version: DATA.version, rule, headroom: told.headroom, table: table.name };
  const made = await filesOf(cave, best, text, how, levels, notes);
  const { atLeast, torches } = plan, counts = { dark: dark.length, torches: torches.length, atLeast };
  return { ...counts, turns, peak, memory, name, rule, table: table.name, verdict, files: made };
}

/** Plans a cave that is read first; with how many milliseconds that took. */
async function planRead(module, reading, told, tell) {
  const began = performance.now(), done = await planCave(module, await reading, told, tell);
  return { ...done, ms: performance.now() - began };
}

/** Plans a file. */
const planFile = (module, file, bytes, told, tell) => planRead(module, demandCave(file, bytes), told, tell);

/** Plans the box between two corners of a world among files, in a dimension. */
const planWorld = (module, { files, dimension, corners }, told, tell) =>
  planRead(module, caveOfWorld(files, dimension, corners, told.rule), told, tell);
