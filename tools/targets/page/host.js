"use strict";

// The program in a page: WebAssembly over files in memory. Each run has an instance of its own, whose memory goes
// with it.

/** Thrown through the program, which ends by that status. */
class Ended extends Error {
  constructor(status) {
    super(`ended by ${status}`);
    this.status = status;
  }
}

/** Bytes that are written one after another. */
class Sink {
  constructor() {
    this.parts = [];
  }

  put(bytes) {
    this.parts.push(bytes.slice()); // the program's memory changes
  }

  all() {
    return joined(this.parts);
  }
}

/** Parts in one. */
function joined(parts) {
  const whole = new Uint8Array(parts.reduce((count, part) => count + part.length, 0));
  let at = 0;
  for (const part of parts) {
    whole.set(part, at);
    at += part.length;
  }
  return whole;
}

/** The functions that the program has of its host (../system/page.c), over files by their names. */
class Host {
  /** `read` answers the bytes of a file by its name, or null; `hear` gets what is written on standard error. */
  constructor(words, { read, hear, now = () => performance.now() }) {
    Object.assign(this, { read, hear, now });
    this.words = words.map((word) => new TextEncoder().encode(word));
    this.open = [{ name: "/dev/stdin" }, { sink: new Sink() }, { told: new TextDecoder() }];
    this.made = new Map();
    this.numbers = new Map();
    this.memory = null;
  }

  bytes(place, count) {
    return new Uint8Array(this.memory.buffer, place, count);
  }

  name(place, count) {
    return new TextDecoder().decode(this.bytes(place, count));
  }

  /** The number of an opened file; -1 where there is none of that name. */
  opened(name, isMade) {
    if (isMade) {
      const sink = new Sink();
      this.made.set(name, sink);
      return this.open.push({ sink }) - 1;
    }
    const bytes = this.read(name);
    return bytes === null ? -1 : this.open.push({ bytes, at: 0 }) - 1;
  }

  /** How many bytes were read: 0 at the end, -1 where it failed. */
  taken(file, place, count) {
    const opened = this.open[file];
    if (opened && opened.name) Object.assign(opened, { bytes: this.read(opened.name), at: 0, name: null });
    if (!opened || !opened.bytes) return -1;
    const part = opened.bytes.subarray(opened.at, opened.at + count);
    this.bytes(place, part.length).set(part);
    opened.at += part.length;
    return part.length;
  }

  /** How many bytes were written; -1 where it failed. */
  written(file, place, count) {
    const opened = this.open[file];
    if (opened && opened.told) this.hear(opened.told.decode(this.bytes(place, count).slice(), { stream: true }));
    else if (opened && opened.sink) opened.sink.put(this.bytes(place, count));
    else return -1;
    return count;
  }

  /** A number that is the file's own; -1 where there is none of that name. */
  kind(name) {
    if (name === "/dev/stdout" || (!this.made.has(name) && this.read(name) === null)) return -1;
    if (!this.numbers.has(name)) this.numbers.set(name, this.numbers.size);
    return this.numbers.get(name);
  }

  /** How many bytes a word has; -1 where there is none, -2 where it hasn't room. */
  word(index, place, room) {
    const word = this.words[index];
    if (!word) return -1;
    this.bytes(place, Math.min(room, word.length)).set(word.subarray(0, room));
    return word.length > room ? -2 : word.length;
  }

  functions() {
    return {
      open: (place, count, isMade) => this.opened(this.name(place, count), isMade),
      read: (file, place, count) => this.taken(file, place, count),
      write: (file, place, count) => this.written(file, place, count),
      kind: (place, count) => this.kind(this.name(place, count)),
      argument: (index, place, room) => this.word(index, place, room),
      now: () => this.now(),
      exit: (status) => {
        throw new Ended(status);
      },
    };
  }
}

/** Runs the program once. What it answers: the status, standard output, the files that it made, and the memory that it
 * took. Throws where the engine ends it, for want of stack or memory. */
async function runProgram(module, words, files) {
  const host = new Host(["torchplan", ...words], files);
  const { exports } = await WebAssembly.instantiate(module, { host: host.functions() });
  host.memory = exports.memory;
  let status;
  try {
    status = exports.start();
  } catch (error) {
    if (!(error instanceof Ended)) throw error;
    status = error.status;
  }
  const made = new Map([...host.made].map(([name, sink]) => [name, sink.all()]));
  const memory = exports.memory.buffer.byteLength;
  return { status, output: host.open[1].sink.all(), made, peak: exports.peak(), memory };
}
