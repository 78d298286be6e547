// What the page's scripts make of files, for test_planning_page.py: a JSON of questions comes on standard input, and
// their answers go to standard output. The first word is the file that has the scripts, the second the program.
import fs from "node:fs";
import path from "node:path";
import vm from "node:vm";

const names = `boxFile, brightened, filesOfPlan, caveOfFile, caveOfWorld, chosenTable, edgeLines, inWalkOrder,
  plainNameOfCave, planFile, planWorld, readDark, readPlan, readRows, rowsOfTable, rowText, seenOf, sha256,
  tableForUnknown, textOf, withShell, DATA`;
const page = vm.runInThisContext(`${fs.readFileSync(process.argv[2], "utf-8")}; ({ ${names} })`);
const bytesOf = (text) => new Uint8Array(Buffer.from(text, "base64"));
const textOf = (bytes) => Buffer.from(bytes).toString("base64");

const textsOf = (files) => Object.fromEntries([...files].map(([name, bytes]) => [name, textOf(bytes)]));

async function caveOf({ file, bytes, corner, dimension, name }) {
  const cave = await page.caveOfFile(file, bytesOf(bytes));
  if (corner) Object.assign(cave.box, { corner, dimension });
  if (name !== undefined && cave.box) cave.box.name = name;
  return cave;
}

/** The files below a folder as a browser hands them on: each with its path, which begins with the folder's name. */
function filesBelow(folder, name = path.basename(folder)) {
  return fs.readdirSync(folder, { withFileTypes: true }).flatMap((entry) => {
    const [at, told] = [path.join(folder, entry.name), `${name}/${entry.name}`];
    return entry.isDirectory() ? filesBelow(at, told) : [[told, new Blob([fs.readFileSync(at)])]];
  });
}

const NOTHING = Uint8Array.of(10, 0, 0, 0); // a compound of NBT without entries

/** Files that are told by their paths alone. */
const filesNamed = (paths) =>
  paths.map((told) => [told, new Blob(told.endsWith("level.dat") ? [NOTHING] : [])]);

const seenBox = (box) => ({ size: box.size, cells: [...box.cells], version: box.dataVersion, corner: box.corner,
  dimension: box.dimension, name: box.name, palette: box.palette.map(([told, props]) => [told, Object.fromEntries(props)]) });

const answers = {
  /** A box of a world: as it stands, as the program reads it, and the rows of its shell. */
  async world({ folder, dimension, corners, rule, headroom }) {
    const found = await page.caveOfWorld(filesBelow(folder), dimension, corners, rule);
    const rows = page.rowsOfTable(page.chosenTable(found.box.dataVersion).text);
    const cave = page.withShell(found, rows, headroom);
    return { box: seenBox(cave.box), around: seenBox(cave.around), made: [...cave.box.made], data: textOf(cave.data),
      rows: cave.rows.map(page.rowText).join(""), notes: cave.notes };
  },

  look: ({ folder, paths, dimension }) => page.seenOf(folder ? filesBelow(folder) : filesNamed(paths), dimension),

  /** All that the page makes of a box of a world. */
  async planWorld({ folder, dimension, corners, told }) {
    const asked = { files: filesBelow(folder), dimension, corners };
    return textsOf((await page.planWorld(await program, asked, told, () => {})).files);
  },

  /** The files of a plan. */
  async files(asked) {
    const { box } = await caveOf(asked), plan = page.readPlan(asked.plan), dark = page.readDark(asked.dark);
    const levels = bytesOf(asked.levels);
    return textsOf(await page.filesOfPlan(box, plan, dark, levels, asked.verdict, asked.told, asked.notes));
  },

  /** All that the page makes of a file, from the file on. */
  async plan({ file, bytes, told }) {
    return textsOf((await page.planFile(await program, file, bytesOf(bytes), told, () => {})).files);
  },

  /** A file as the program gets it, and what is seen in it. */
  async cave(asked) {
    const { box, data, name, isMade } = await caveOf(asked);
    const seen = box && { size: box.size, cells: [...box.cells], version: box.dataVersion,
      palette: box.palette.map(([told, props]) => [told, Object.fromEntries(props)]) };
    return { name, data: textOf(data), box: seen, isMade };
  },

  /** The box of a structure, written as a structure. */
  async again(asked) {
    return textOf(page.boxFile((await caveOf(asked)).box));
  },

  async edge(asked) {
    const { box } = await caveOf(asked), rows = page.rowsOfTable(page.chosenTable(null).text);
    return page.edgeLines(asked.edge, box, asked.isUnread ? null : rows, asked.dark);
  },

  /** Where torches stand better. */
  async bright(asked) {
    const { box } = await caveOf(asked), rows = page.readRows(page.chosenTable(box.dataVersion).text);
    const moved = page.brightened(box, rows, bytesOf(asked.levels), asked.regions, asked.need);
    return [...moved].map(([number, { x, y, z, hang }]) => [number, [x, y, z, hang]]);
  },

  name: ({ name }) => page.plainNameOfCave(name),
  walk: ({ torches }) => {
    const told = torches.map(([x, y, z, hang]) => ({ x, y, z, hang }));
    return page.inWalkOrder(told).map(({ x, y, z, hang }) => [x, y, z, hang]);
  },
  unknown: ({ names: told, own }) => page.tableForUnknown(told, own),
  table: ({ version, own, isSteady }) => page.chosenTable(version, own, isSteady),
  rows: ({ text }) => page.readRows(text).map(page.rowText).join(""),
  sum: ({ bytes }) => page.sha256(bytesOf(bytes)),
  text: ({ bytes }) => page.textOf(Buffer.from(bytes, "base64").toString("latin1")),
};

const { tables, questions } = JSON.parse(fs.readFileSync(0, "utf-8"));
const [, , , wasm] = process.argv;
const program = wasm && WebAssembly.compile(fs.readFileSync(wasm));
page.DATA.tables = tables;
const found = [];
for (const asked of questions) {
  try {
    found.push({ answer: await answers[asked.what](asked) });
  } catch (fault) {
    const { message, more, line, hasPlace, stack } = fault;
    found.push({ fault: message, more, line, hasPlace, kind: fault.constructor.name, trace: stack });
  }
}
process.stdout.write(JSON.stringify(found));
