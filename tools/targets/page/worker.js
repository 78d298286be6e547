"use strict";

// The worker of the page: it is asked once, and tells what comes of it.

/** What is asked: a plan of a file or of a box of a world, or what there is of a world. */
async function answerTo({ module, file, bytes, world, look, told }) {
  if (look) return { seen: await seenOf(look.files, look.dimension) };
  if (world) return { done: await planWorld(module, world, told, postMessage) };
  return { done: await planFile(module, file, bytes, told, postMessage) };
}

onmessage = async ({ data: { tables, ...asked } }) => {
  DATA.tables = tables;
  try {
    postMessage(await answerTo(asked));
  } catch (error) {
    const { message, line = null, more = [] } = error;
    const sentence = error instanceof Refusal && error.hasPlace ? message : isOfEngine(error)
      ? "This cave takes more stack or memory than this browser gives a page. Use the program for it."
      : `Something went wrong in this page: ${error}`;
    postMessage({ refused: { sentence, line, more } });
  }
};
