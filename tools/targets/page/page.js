"use strict";

// The page: takes a file, has a worker plan it, and shows what comes of it.

const byId = (id) => document.getElementById(id);
const textIn = (id) => byId(id).textContent.trim();
const MORE_TURNS = 8; // times as many when a search goes on

// What each file is for, by its name or how it ends, in the order of the list.
const FILES = [
  ["-torches.zip", "data pack: places the torches, shows them, takes them away"],
  ["-torches.litematic", "schematic for Litematica"],
  ["-torches.nbt", "for a structure block"],
  ["index.html", "this map and list, to keep or send"],
  ["plan.txt", "the plan as text"],
  ["plan.proof", "the proof that no fewer do"],
  ["plan.check", "what the checker says of it"],
  ["table.toml", "the table of blocks"],
  ["cave.nbt", "the cave as a structure file"],
  ["README.txt", "how to use each file"],
];

function element(tag, properties = {}, ...inside) {
  const made = Object.assign(document.createElement(tag), properties);
  made.append(...inside);
  return made;
}

async function unpacked(base64) {
  const bytes = Uint8Array.from(atob(base64), (letter) => letter.charCodeAt(0));
  const stream = new Blob([bytes]).stream().pipeThrough(new DecompressionStream("gzip"));
  return new Uint8Array(await new Response(stream).arrayBuffer());
}

const program = unpacked(textIn("program")).then((bytes) => WebAssembly.compile(bytes));
const tables = unpacked(textIn("tables")).then((bytes) => JSON.parse(new TextDecoder().decode(bytes)));
const code = URL.createObjectURL(new Blob([byId("worker").textContent], { type: "text/javascript" }));

// What is under way: the worker, whether it only looks into a world, the cave, the files of a world (else null), when it
// began, how many turns were told, and notes for the end.
const state = {
  worker: null, isLooking: false, cave: null, files: null, began: 0, turn: 0, ticking: 0, links: [], notes: new Set(),
};

const counted = (count, one, many) => `${count.toLocaleString("en-GB")} ${count === 1 ? one : many}`;
const seconds = () => `${Math.floor((performance.now() - state.began) / 1000)} s`;

function show({ start = true, work = false, fault = false }) {
  byId("start").hidden = !start;
  byId("result").hidden = start;
  byId("work").hidden = !work;
  byId("world").hidden = work || state.files === null;
  byId("fault").hidden = !fault;
  if (!work) clearInterval(state.ticking);
}

function told(turns) {
  const search = byId("search").value, own = state.table || null;
  return {
    rule: byId("rule").value || null, headroom: byId("headroom").value, table: own, isSteady: byId("steady").checked,
    turns: turns || Number(search) || null, isToTheEnd: !turns && search === "end",
  };
}

/** Plans the cave that was chosen last; `turns` where the options don't say how many. */
const plan = (turns = null) => ask(`Reading ${state.cave.file}`, { ...state.cave, told: told(turns) });

/** Looks which boxes the world has that was chosen: those of a dimension, or of the player's. */
const look = (dimension = null) => ask("Looking into the world", { look: { files: state.files, dimension } });

/** Asks a new worker. */
async function ask(step, asked) {
  stop();
  Object.assign(state, { isLooking: "look" in asked, began: performance.now(), turn: 0, notes: new Set() });
  show({ work: true });
  byId("step").textContent = step;
  byId("line").textContent = byId("clock").textContent = "";
  state.ticking = setInterval(() => (byId("clock").textContent = seconds()), 500);
  try {
    const worker = (state.worker = new Worker(code)), [module, text] = await Promise.all([program, tables]);
    if (worker !== state.worker) return;
    worker.onmessage = ({ data }) => hear(worker, data);
    worker.onerror = (event) => refuse({ sentence: "This page's worker failed.", line: event.message });
    worker.postMessage({ module, tables: text, ...asked });
  } catch (error) {
    const sentence = "This browser can't run the program: it needs WebAssembly and workers (see the limits below).";
    refuse({ sentence, line: String(error) });
  }
}

function hear(worker, { done, seen, refused, step, line, note }) {
  if (worker !== state.worker) return;
  if (step) byId("step").textContent = step;
  if (note || line) byId("line").textContent = note || line;
  if (note) state.notes.add(note);
  const turn = /turn (\d+)$/.exec(line || "");
  if (turn) state.turn = Math.max(state.turn, Number(turn[1]));
  if (done) finish(done);
  if (seen) offer(seen);
  if (refused) refuse(refused);
}

/** Ends the worker, if one is at work. */
function stop() {
  if (state.worker) state.worker.terminate();
  state.worker = null;
  clearInterval(state.ticking);
}

function refuse({ sentence, line, more = [] }) {
  stop();
  if (state.isLooking) state.files = null; // there is no box to offer
  show({ fault: true });
  byId("sentence").textContent = sentence;
  byId("said").hidden = !line;
  byId("said").textContent = line ? `The program says: ${line}` : "";
  byId("rows").hidden = more.length === 0;
  byId("rows").textContent = more.join("\n");
  byId("sofar").hidden = true;
}

/** Offers a box of the world that was looked into. */
function offer(seen) {
  stop();
  fillForm(seen);
  show({});
}

/** The user stops the search. It can be planned with the turns that it had: the program takes the same ones again. */
function stopped() {
  const after = seconds(), turns = state.turn;
  refuse({ sentence: `Stopped after ${after}. ${byId("line").textContent}` });
  byId("sofar").hidden = state.isLooking;
  const sofar = `Plan with the ${counted(turns, "turn", "turns")} so far`;
  byId("sofar").textContent = turns ? sofar : "Plan with one turn a region";
  byId("sofar").onclick = () => plan(turns || 1);
}

/** What the bar says beside the map, which tells the numbers itself. */
function summaryOf(done) {
  const how = `planned in ${(done.ms / 1000).toFixed(1)} s by rule ${done.rule}`;
  if (done.dark === 0) return [`${how}; no cell is dark`];
  if (done.atLeast === null) return [`${how}; `, element("b", {}, "the checker accepted the proof")];
  const turns = counted(done.turns, "turn a region wasn't", "turns a region weren't");
  return [`${how}; ${turns} enough to prove the number`];
}

function finish(done) {
  stop();
  show({ start: false });
  byId("summary").replaceChildren(element("b", {}, `${done.name}: `), ...summaryOf(done));
  byId("notes").replaceChildren(...Array.from(state.notes, (note) => element("span", {}, note)));
  byId("plan").srcdoc = new TextDecoder().decode(done.files.get("index.html"));
  byId("more").hidden = done.atLeast === null;
  byId("more").onclick = () => plan(done.turns * MORE_TURNS);
  for (const link of state.links) URL.revokeObjectURL(link);
  const names = [...done.files.keys()];
  const isFor = (name, what) => (what.startsWith("-") ? name.endsWith(what) : name === what);
  const offered = FILES.flatMap(([what, text]) =>
    names.filter((name) => isFor(name, what)).map((name) => [name, text]));
  state.links = offered.map(([name]) => URL.createObjectURL(new Blob([done.files.get(name)])));
  byId("links").replaceChildren(...offered.map(([name, what], at) => {
    // a name that has the cave's is kept: the game and README.txt call the file by it
    const link = { href: state.links[at], download: name.includes("-torches.") ? name : `${done.name}-${name}` };
    return element("li", {}, element("a", link, name, element("small", {}, what)));
  }));
  byId("files").open = false;
  state.done = done;
}

/** Takes what was chosen or dropped: a world, or the first file as a cave. */
async function take(files) {
  if (files.length === 0) return;
  state.files = areOfWorld(files) ? files : null;
  if (state.files !== null) return void look();
  const [[, file]] = files;
  state.cave = { file: file.name, bytes: new Uint8Array(await file.arrayBuffer()) };
  plan();
}

const NO_FOLDER = "This browser doesn't let the page read a folder that is dropped. Choose the world's folder by the" +
  " button, or choose its files region/r.X.Z.mca.";

function listen() {
  for (const name of ["file", "folder"]) {
    byId(name).addEventListener("change", (event) => {
      take(chosenFiles(event.target.files));
      event.target.value = ""; // so that the same file can be chosen again
    });
  }
  byId("table").addEventListener("change", async (event) => {
    const [file] = event.target.files;
    state.table = file ? { name: file.name, text: await file.text() } : null;
  });
  for (const kind of ["dragover", "dragleave", "drop"]) {
    document.addEventListener(kind, (event) => {
      event.preventDefault();
      byId("drop").classList.toggle("over", kind === "dragover");
      if (kind !== "drop") return;
      droppedFiles(event.dataTransfer).then(take, (fault) => refuse({ sentence: NO_FOLDER, line: String(fault) }));
    });
  }
  byId("stop").addEventListener("click", stopped);
  byId("another").addEventListener("click", () => show({}));
  document.addEventListener("click", (event) => {
    if (!byId("files").contains(event.target)) byId("files").open = false;
  });
  window.addEventListener("blur", () => (byId("files").open = false)); // a click into the map
}

byId("version").textContent = `torchplan ${document.documentElement.dataset.version || ""}`.trim();
listen();
listenToForm();
