"use strict";

// Bytes and texts as the scripts of tools/user have them: base64, sums, packing, and how Python prints JSON.

const MOST_BYTES = 67_108_864; // of a file, and of what it unpacks to
const utf8 = (text) => new TextEncoder().encode(text);

function base64(bytes) {
  let text = "";
  for (let at = 0; at < bytes.length; at += 0x6000) {
    text += btoa(String.fromCharCode(...bytes.subarray(at, at + 0x6000)));
  }
  return text; // 0x6000 is a multiple of three, so that the parts join
}

function fromBase64(text) {
  return Uint8Array.from(atob(text), (letter) => letter.charCodeAt(0));
}

/** Bytes through one of the streams that a browser has for packing, at most `most` of them. */
async function through(bytes, stream, most = Infinity) {
  const parts = [], writer = stream.writable.getWriter(), reader = stream.readable.getReader();
  writer.write(bytes).then(() => writer.close()).catch(() => {}); // the reader hears of it too
  let count = 0;
  for (;;) {
    const { done, value } = await reader.read();
    if (done) return joined(parts);
    parts.push(value);
    count += value.length;
    if (count > most) {
      reader.cancel();
      throw damaged(`it unpacks to more than ${grouped(most)} bytes`);
    }
  }
}

const isPacked = (bytes) => bytes[0] === 0x1f && bytes[1] === 0x8b;
const packed = (bytes) => through(bytes, new CompressionStream("gzip"));
const deflated = (bytes) => through(bytes, new CompressionStream("deflate-raw"));

/** Bytes unpacked, up to the limit: by "gzip", or by "deflate", as browsers call what zlib writes. */
async function unpackedBy(packing, bytes) {
  try {
    return await through(bytes, new DecompressionStream(packing), MOST_BYTES);
  } catch (fault) {
    throw isDamage(fault) ? fault : damaged("its packed data is damaged");
  }
}

/** The bytes of a file of the game, which is packed by gzip or not at all. */
async function plain(bytes) {
  if (bytes.length > MOST_BYTES) throw damaged(`it has more than ${grouped(MOST_BYTES)} bytes`);
  return isPacked(bytes) ? unpackedBy("gzip", bytes) : bytes;
}

/** A number with commas between thousands. */
const grouped = (number) => String(number).replace(/\B(?=(\d{3})+$)/g, ",");

/** Texts in the order of their characters' numbers, as Python sorts them. */
function byCharacters(one, other) {
  const left = Array.from(one, (letter) => letter.codePointAt(0));
  const right = Array.from(other, (letter) => letter.codePointAt(0));
  for (let at = 0; at < Math.min(left.length, right.length); at += 1) {
    if (left[at] !== right[at]) return left[at] - right[at];
  }
  return left.length - right.length;
}

/** JSON as Python prints it: in letters of ASCII, with these texts between items and behind keys. */
function jsonOf(value, comma = ",", colon = ":") {
  const inner = (one) => jsonOf(one, comma, colon);
  if (Array.isArray(value)) return `[${value.map(inner).join(comma)}]`;
  if (value !== null && typeof value === "object") {
    return `{${Object.entries(value).map(([key, one]) => `${inner(key)}${colon}${inner(one)}`).join(comma)}}`;
  }
  if (typeof value !== "string") return String(value);
  const escaped = (letter) => `\\u${letter.charCodeAt(0).toString(16).padStart(4, "0")}`;
  return JSON.stringify(value).replace(/[\x7f-\uffff]/g, escaped);
}

// The first bits of the fractions of roots of primes (FIPS 180-4), computed.
const primes = [];
for (let number = 2; primes.length < 64; number += 1) {
  if (primes.every((prime) => number % prime !== 0)) primes.push(number);
}

/** The first 32 bits of the fraction of a root: by whole numbers, since a double is too short. */
function rootBits(prime, degree) {
  const wanted = BigInt(prime) << BigInt(32 * degree);
  let low = 0n, high = 1n << 36n;
  while (high - low > 1n) {
    const middle = (low + high) >> 1n;
    if (middle ** BigInt(degree) <= wanted) low = middle;
    else high = middle;
  }
  return Number(low & 0xffffffffn);
}

const ROUNDS = primes.map((prime) => rootBits(prime, 3));
const FIRST = primes.slice(0, 8).map((prime) => rootBits(prime, 2));

/** SHA-256 as hexadecimal digits. A page that isn't served by HTTPS has none of the browser's. */
function sha256(bytes) {
  const length = Math.ceil((bytes.length + 9) / 64) * 64, whole = new Uint8Array(length);
  whole.set(bytes);
  whole[bytes.length] = 0x80;
  const view = new DataView(whole.buffer), sums = [...FIRST], words = new Uint32Array(64);
  view.setUint32(length - 8, Math.floor(bytes.length / 0x20000000));
  view.setUint32(length - 4, bytes.length * 8);
  const turned = (word, by) => (word >>> by) | (word << (32 - by));
  for (let block = 0; block < length; block += 64) {
    for (let at = 0; at < 64; at += 1) {
      if (at < 16) words[at] = view.getUint32(block + 4 * at);
      else {
        const early = words[at - 15], late = words[at - 2];
        words[at] = words[at - 16] + words[at - 7] + (turned(early, 7) ^ turned(early, 18) ^ (early >>> 3)) +
          (turned(late, 17) ^ turned(late, 19) ^ (late >>> 10));
      }
    }
    let [a, b, c, d, e, f, g, h] = sums;
    for (let at = 0; at < 64; at += 1) {
      const chosen = (e & f) ^ (~e & g);
      const one = (h + (turned(e, 6) ^ turned(e, 11) ^ turned(e, 25)) + chosen + ROUNDS[at] + words[at]) | 0;
      const two = ((turned(a, 2) ^ turned(a, 13) ^ turned(a, 22)) + ((a & b) ^ (a & c) ^ (b & c))) | 0;
      [a, b, c, d, e, f, g, h] = [(one + two) | 0, a, b, c, (d + one) | 0, e, f, g];
    }
    [a, b, c, d, e, f, g, h].forEach((word, at) => (sums[at] = (sums[at] + word) | 0));
  }
  return sums.map((word) => (word >>> 0).toString(16).padStart(8, "0")).join("");
}

const CRC = Uint32Array.from({ length: 256 }, (_, number) => {
  for (let bit = 0; bit < 8; bit += 1) number = number & 1 ? (number >>> 1) ^ 0xedb88320 : number >>> 1;
  return number;
});

/** The sum that zip keeps of a file. */
function crc32(bytes) {
  let sum = -1;
  for (const byte of bytes) sum = (sum >>> 8) ^ CRC[(sum ^ byte) & 255];
  return ~sum >>> 0;
}
