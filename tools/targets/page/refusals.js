"use strict";

// Why there is no plan, as ../../user/refusals.py has it.

/** A sentence that says why there is no plan; the program's own line, where it said one; lines that help; and whether the
 * sentence says where: of a damaged piece of a file it doesn't, until who reads the file adds it. */
class Refusal extends Error {
  constructor(sentence, line = null, more = [], hasPlace = true) {
    super(sentence);
    Object.assign(this, { line, more, hasPlace });
  }
}

/** The refusal of a piece of a file, without its place. */
const damaged = (what) => new Refusal(what, null, [], false);

/** Whether something is such a refusal. */
const isDamage = (fault) => fault instanceof Refusal && !fault.hasPlace;

/** A refusal by a line as `light` has it. */
const refusedLine = (line) => new Refusal(`${line[0].toUpperCase()}${line.slice(1)}.`);

/** A fault, with what a line of `light` says of a damaged piece. */
const withPlace = (place, fault) => (isDamage(fault) ? refusedLine(`${place}: ${fault.message}`) : fault);
