"use strict";

// Boxes of a world by their corners, as ../../user/extents.py has them: an extent is its lowest corner and its highest,
// both of which belong to it.

/** The extent of any two corners that face each other. */
const extentBetween = (one, other) => ({
  low: one.map((at, axis) => Math.min(at, other[axis])),
  high: one.map((at, axis) => Math.max(at, other[axis])),
});

/** The extent of these sides at its lowest corner. */
const extentOfSize = (low, size) => ({ low, high: low.map((at, axis) => at + size[axis] - 1) });

/** The three sides. */
const sizeOfExtent = ({ low, high }) => low.map((at, axis) => high[axis] - at + 1);

/** The extent with `by` layers more on each side. */
const grownExtent = ({ low, high }, by) => ({ low: low.map((at) => at - by), high: high.map((at) => at + by) });

/** Whether it keeps the program's limits with one layer more on each side. */
const isSmallExtent = (extent) => isSmall(sizeOfExtent(grownExtent(extent, 1)));
