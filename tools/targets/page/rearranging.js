"use strict";

// A plan whose torches stand better, with its text and its proof, as ../../user/rearranging.py makes it. The program
// has the last word.

/** The answers with torches that were moved to where they stand better. They stay as they were where the page draws a
 * plan otherwise than the program, or the program doesn't accept what was moved. */
async function rearranged(planner, box, rows, need, answers) {
  const { plan, dark, verdict, files } = answers, signs = box.palette.map((state) => signOf(rowOf(rows, state)));
  const plainText = (name) => new TextDecoder().decode(files.get(name));
  if (textOfPlan(plan, box, signs) !== plainText("plan.txt")) return answers;
  const number = ({ x, y, z }) => box.number(x, y, z), proof = verdict === null ? null : plainText("plan.proof");
  const whole = [[dark.map((place) => box.number(...place)), plan.torches.map(number)]];
  const base = await levelsOf(planner), moved = brightened(box, rows, base, proof === null ? whole : regionsOf(proof), need);
  if (moved.size === 0) return answers;
  const torches = plan.torches.map((torch) => moved.get(number(torch)) || torch);
  const after = textOfPlan({ ...plan, torches }, box, signs), all = new Map(files).set("plan.txt", utf8(after));
  const found = { ...answers, plan: readPlan(after), files: all };
  if (proof === null) return (await isLit(planner, box, torches)) ? found : answers;
  const numbers = new Map([...moved].map(([old, torch]) => [old, number(torch)]));
  planner.files.set("plan.proof", utf8(withTorches(proof, numbers)));
  const checked = await planner.run("check", ["cave.nbt", "plan.proof"], [DONE, REJECTED]);
  if (checked.status === REJECTED) return answers;
  all.set("plan.proof", planner.files.get("plan.proof")).set("plan.check", checked.output);
  return { ...found, verdict: checked.text.trim() };
}

/** Whether the program finds no dark cell once these torches stand. */
async function isLit(planner, box, torches) {
  const found = new Box(box.size, [...box.palette, ...torches.map(stateOfTorch)], box.cells.slice());
  torches.forEach(({ x, y, z }, index) => (found.cells[box.number(x, y, z)] = box.palette.length + index));
  const cave = planner.files.get("cave.nbt");
  planner.files.set("cave.nbt", boxFile(found));
  const seen = await planner.run("dark", ["cave.nbt", "--progress"], [DONE]);
  planner.files.set("cave.nbt", cave);
  return readDark(seen.text).length === 0;
}
