"use strict";

// The parts of a certificate that tell where torches stand, as ../../user/certificates.py has them: the proof that no
// fewer do speaks of the caves' cells alone, so the torches may be others, as many in each region.

/** The lines of a certificate; `change` answers what stands for the first line of each region that begins so: below it
 * D is a node of the tree. */
function changedLines(text, word, change) {
  let isDue = false;
  return text.split("\n").map((line) => {
    if (line.startsWith("region ")) isDue = true;
    else if (isDue && line.startsWith(word)) {
      isDue = false;
      return change(line.split(" ").slice(1).map(Number));
    }
    return line;
  });
}

/** The regions of a certificate: the numbers of the dark cells and of the torches of each. */
function regionsOf(text) {
  const [cells, torches] = ["D ", "T "].map((word) => {
    const found = [];
    changedLines(text, word, (numbers) => found.push(numbers));
    return found;
  });
  return cells.map((numbers, at) => [numbers, torches[at]]);
}

/** The certificate with torches that were moved: the new number of each by the old one. */
function withTorches(text, moved) {
  const now = (number) => (moved.has(number) ? moved.get(number) : number);
  const told = (numbers) => ["T", ...numbers.map(now).sort((one, other) => one - other)].join(" ");
  return changedLines(text, "T ", told).join("\n");
}
