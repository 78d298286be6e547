"use strict";

// What functions, structures and files of a cave are called after it, as ../../user/names.py has it.

const LONGEST_NAME = 60;

/** A name in the letters that functions, structures and tags may have. Where letters of it are lost, four digits of its
 * sum keep it apart from others. */
function plainNameOfCave(name) {
  const lower = name.toLowerCase(), found = lower.replace(/[^a-z0-9_-]+/gu, "_").slice(0, LONGEST_NAME) || "cave";
  const isLost = /[^a-z0-9_. -]/u.test(lower) || Array.from(lower).length > LONGEST_NAME;
  return isLost ? `${found}-${sha256(utf8(name)).slice(0, 4)}` : found;
}

/** What the files of a cave's torches are called, without their endings. */
const torchesName = (name) => `${plainNameOfCave(name)}-torches`;
