"use strict";

// Files that are no cave, named for what they are, as ../../user/wrong_files.py names them.

const WHOLE_FOLDER = "Drop the world's folder, or choose it.";
const EDITION = "Only Java Edition's caves are planned.";
const UNPACK = "Unpack it, and choose a file in it.";
const ANEW = "Save it anew as .schem, .litematic or .nbt.";

/** What the bytes of a file are where they are no NBT, or null: a sentence. */
function wrongFile(name, bytes) {
  if (/\.(mcworld|mcstructure|mctemplate)$/i.test(name)) return `This is a file of Bedrock Edition. ${EDITION}`;
  if (/\.(mca|mcr|mcc)$/i.test(name)) return `This is a region file of a world. ${WHOLE_FOLDER}`;
  if (letters(bytes.subarray(0, 4)) === "PK\x03\x04") return `This is a zip archive. ${UNPACK}`;
  return null;
}

/** What a file of NBT is by its root where it is no cave, or null: a sentence. */
function wrongRoot(root) {
  const [kind, found] = root.get("Data") || [], inner = kind === COMPOUND ? found : new Map();
  const has = (...names) => names.some((name) => inner.has(name));
  if (has("LevelName", "Player", "WorldGenSettings")) return `This is a world's file. ${WHOLE_FOLDER}`;
  if (root.has("xPos") || root.has("sections")) return `This is a chunk of a world. ${WHOLE_FOLDER}`;
  if (root.has("Pos") && root.has("Inventory")) return `This is a player's file. ${WHOLE_FOLDER}`;
  if (isNumbered(root)) return `This is a schematic of old, whose blocks are numbers. ${ANEW}`;
  return null;
}
