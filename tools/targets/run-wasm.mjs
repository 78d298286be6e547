#!/usr/bin/env node
// run-wasm.mjs MODULE.wasm WORD..: runs a page's program over this machine's files, as a test of it. Where the engine
// ends it for want of stack, the status is 70.
//
// With STATS in the environment its time and memory stand on standard error. FAULTS has words that a host could do to
// it: short=N (no read or write is of more bytes), read=N and write=N (that one and all later fail), pages=N (the
// most memory, in 64 KiB).
import fs from "node:fs";
import path from "node:path";
import vm from "node:vm";

const here = path.dirname(new URL(import.meta.url).pathname);
const { Host, runProgram } = vm.runInThisContext(
  `${fs.readFileSync(path.join(here, "page", "host.js"), "utf-8")}; ({ Host, runProgram })`);
const [, , file, ...words] = process.argv;
const faults = Object.fromEntries((process.env.FAULTS || "").split(" ").map((one) => one.split("=")));
const kept = new Map();

/** A file's bytes; null where it isn't there. Node's own streams, by which the program asks what OUT is, aren't. */
function read(name) {
  if (!kept.has(name)) {
    try {
      kept.set(name, name.startsWith("/proc/self/") ? null : fs.readFileSync(name === "/dev/stdin" ? 0 : name));
    } catch {
      kept.set(name, null);
    }
  }
  return kept.get(name);
}

/** Makes a call of the host short, and fail from its n-th on. */
function worsen(call, failsFrom) {
  const kind = Host.prototype[call];
  let count = 0;
  Host.prototype[call] = function (number, place, length) {
    count += 1;
    if (number !== 2 && failsFrom && count >= failsFrom) return -1;
    return kind.call(this, number, place, Math.min(length, faults.short || length));
  };
}

/** A module whose memory ends earlier: the limit has three bytes, and keeps them. */
function limited(bytes, pages) {
  const number = (at) => {
    let found = 0, shift = 0;
    for (;; at += 1) {
      found |= (bytes[at] & 127) << shift;
      shift += 7;
      if (bytes[at] < 128) return [found, at + 1];
    }
  };
  for (let at = 8; at < bytes.length; ) {
    const [size, inside] = number(at + 1);
    if (bytes[at] === 5) {
      const [, most] = number(inside + 2); // one memory, with a limit; the least
      bytes.set([(pages & 127) | 128, ((pages >> 7) & 127) | 128, pages >> 14], most);
    }
    at = inside + size;
  }
  return bytes;
}

worsen("taken", Number(faults.read));
worsen("written", Number(faults.write));
const began = performance.now();
try {
  const bytes = new Uint8Array(fs.readFileSync(file));
  const module = await WebAssembly.compile(faults.pages ? limited(bytes, Number(faults.pages)) : bytes);
  const ended = await runProgram(module, words, { read, hear: (text) => fs.writeSync(2, text) });
  for (let at = 0; at < ended.output.length; ) at += fs.writeSync(1, ended.output, at);
  for (const [name, made] of ended.made) fs.writeFileSync(name, made);
  if (process.env.STATS) {
    const [ms, peak, memory] = [performance.now() - began, ended.peak / 1e6, ended.memory / 1e6].map(Math.round);
    fs.writeSync(2, `${ms} ms, at most ${peak} MB in use of ${memory} MB\n`);
  }
  process.exitCode = ended.status;
} catch (error) {
  fs.writeSync(2, `run-wasm: ${error}\n`);
  process.exitCode = 70;
}
