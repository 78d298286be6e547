"use strict";

// Files as a browser hands them on, chosen or dropped: each with its path, which of a folder begins with its name.

const chosenFiles = (list) => Array.from(list, (file) => [file.webkitRelativePath || file.name, file]);

/** The files that were dropped, folders with all that lies below them. An event has them only while it is heard, so the
 * first of this is done at once. Chromium lets a page from a disk read them by handles alone, other browsers have none. */
async function droppedFiles({ items, files }) {
  const alone = chosenFiles(files), dropped = Array.from(items).filter((item) => item.kind === "file");
  const entries = dropped.map((item) => item.webkitGetAsEntry()).filter(Boolean);
  if (!entries.some((entry) => entry.isDirectory)) return alone;
  const hasHandles = dropped.every((item) => item.getAsFileSystemHandle);
  const handles = hasHandles ? await Promise.all(dropped.map((item) => item.getAsFileSystemHandle())) : [];
  const found = hasHandles ? handles.map((handle) => filesBelowHandle(handle, handle.name))
    : entries.map((entry) => filesBelowEntry(entry, entry.name));
  return (await Promise.all(found)).flat();
}

/** The files of a handle, and below it. */
async function filesBelowHandle(handle, path) {
  if (handle.kind === "file") return [[path, await handle.getFile()]];
  const inner = [];
  for await (const one of handle.values()) inner.push(filesBelowHandle(one, `${path}/${one.name}`));
  return (await Promise.all(inner)).flat();
}

/** The files of an entry, and below it. */
async function filesBelowEntry(entry, path) {
  if (entry.isFile) return [[path, await new Promise((done, failed) => entry.file(done, failed))]];
  const reader = entry.createReader(), inner = [];
  for (;;) {
    const more = await new Promise((done, failed) => reader.readEntries(done, failed)); // some at a time
    if (more.length === 0) break;
    inner.push(...more);
  }
  return (await Promise.all(inner.map((one) => filesBelowEntry(one, `${path}/${one.name}`)))).flat();
}

/** Whether files are of a world, and not one cave. */
const areOfWorld = (files) => files.some(([path]) => path.includes("/") || /\.mc[ac]$/i.test(path));
