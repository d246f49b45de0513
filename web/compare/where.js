// Where a change lies: boxes that hold all of the board that it may change, as small as is easily told.

import { segmentBox, segmentsOf } from "./extents.js";

/** @typedef {import("../board/index.js").Box} Box */

// A segment as a text that is the same whichever way it is gone.
/** @param {{kind: string, numbers: number[]}} segment */
function segmentKey({ kind, numbers: [sx = NaN, sy = NaN, ex = NaN, ey = NaN, ...centre] }) {
  const isTurned = sx > ex || sx === ex && sy > ey, other = kind === "cw" ? "ccw" : "cw";
  const way = kind === "l" ? "l" : isTurned ? other : kind;
  return `${way} ${isTurned ? [ex, ey, sx, sy] : [sx, sy, ex, ey]} ${centre}`;
}

/** @param {string} item */
const segments = (item) => new Map(segmentsOf(item.split(" ")).map((segment) => [segmentKey(segment), segment]));

/**
 * Where two contours differ: the boxes of the segments that only one of them has.
 * @param {string} first
 * @param {string} second
 * @returns {Box[]}
 */
function contourBoxes(first, second) {
  const one = segments(first), other = segments(second);
  return [...[...one].filter(([key]) => !other.has(key)), ...[...other].filter(([key]) => !one.has(key))]
    .map(([, segment]) => segmentBox(segment));
}

/**
 * Where a change lies.
 * @param {import("./changes.js").Change} change
 * @param {readonly string[]} first
 * @param {readonly string[]} second
 * @param {import("./extents.js").Extents} extents
 * @param {boolean} isFine whether a long stroke askew has several boxes
 * @returns {Box[]}
 */
export function boxesOf({ from, to, parts }, first, second, extents, isFine = true) {
  const one = first[from ?? -1] ?? null, other = second[to ?? -1] ?? null;
  if (one !== null && other !== null && parts.length === 1 && parts[0] === "contour") {
    const boxes = contourBoxes(one, other);
    if (boxes.length) return boxes;
  }
  return [one, other].flatMap((item) => (item === null ? [] : isFine ? extents.boxes(item) : [extents.box(item)]));
}
