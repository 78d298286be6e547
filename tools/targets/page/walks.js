"use strict";

// The order in which torches are placed: a short walk, layer by layer where that costs little, as ../../user/walks.py
// finds it. A place has x, y and z.

const ONE_LAYER_MORE = 1.2; // by how much a walk by layers may be longer
const FEW = 12; // of up to this number of torches each is tried as the first, of more only the one in the corner
const TRIES = 1_000_000; // pairs of steps that are looked at for a shorter way

/** How many blocks lie between two places. */
const distance = (one, other) => Math.abs(one.x - other.x) + Math.abs(one.y - other.y) + Math.abs(one.z - other.z);

const lengthOf = (walk) => walk.reduce((sum, place, at) => sum + (at ? distance(walk[at - 1], place) : 0), 0);

/** The first of the items for which a number is the least. */
function leastBy(items, numberOf) {
  const numbers = items.map(numberOf);
  return items[numbers.indexOf(numbers.reduce((least, number) => Math.min(least, number), Infinity))];
}

/** A walk from one of the places that always goes on to the nearest. */
function nearestNext(places, first) {
  const left = places.filter((place) => place !== first), walk = [first];
  while (left.length > 0) {
    const last = walk[walk.length - 1], next = leastBy(left, (place) => distance(last, place));
    walk.push(next);
    left.splice(left.indexOf(next), 1);
  }
  return walk;
}

/** The walk, of which parts from `start` on are turned round for as long as that makes it shorter (2-opt). */
function uncrossed(places, start = 0) {
  const walk = [...places], count = walk.length, between = (one, other) => distance(walk[one], walk[other]);
  for (let tries = 0, isShorter = true; isShorter && tries < TRIES; ) {
    isShorter = false;
    for (let first = start; first < count - 1; first += 1) {
      tries += count - first;
      for (let last = first + 1; last < count; last += 1) {
        const before = first ? between(first - 1, first) : 0, after = last + 1 < count ? between(last, last + 1) : 0;
        const turned = (first ? between(first - 1, last) : 0) + (last + 1 < count ? between(first, last + 1) : 0);
        if (turned >= before + after) continue;
        walk.splice(first, last + 1 - first, ...walk.slice(first, last + 1).reverse());
        isShorter = true;
      }
    }
  }
  return walk;
}

/** A short walk over all places. */
function shortWalk(places) {
  if (places.length === 0) return [];
  const firsts = places.length <= FEW ? places : [leastBy(places, ({ x, z }) => x + z)];
  return leastBy(firsts.map((first) => uncrossed(nearestNext(places, first))), lengthOf);
}

/** A walk over one layer after the other, from the lowest, each begun near to where the last one ends. */
function byLayers(places) {
  const heights = [...new Set(places.map(({ y }) => y))].sort((one, other) => one - other);
  let walk = [];
  for (const height of heights) {
    const layer = places.filter(({ y }) => y === height), last = walk[walk.length - 1];
    if (!last) walk = shortWalk(layer);
    else {
      const nearest = leastBy(layer, (place) => distance(last, place));
      walk = [...walk, ...uncrossed([last, ...nearestNext(layer, nearest)], 1).slice(1)];
    }
  }
  return walk;
}

/** The torches in the order of a walk. */
function inWalkOrder(torches) {
  const free = shortWalk(torches), layered = byLayers(torches);
  return lengthOf(layered) <= ONE_LAYER_MORE * lengthOf(free) ? layered : free;
}
