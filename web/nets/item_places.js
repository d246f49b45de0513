// Where an item of a layer lies, by its words: places that are copper where it is dark.

import { itemOf } from "../board/index.js";
import { elementAt } from "./lists.js";
import { linesOfItem } from "./outline.js";

/** @typedef {import("./flat_items.js").Pair} Pair */

/**
 * Where a line at a height crosses a contour, from left to right.
 * @param {Pair[]} corners
 * @param {number} y
 */
function crossings(corners, y) {
  /** @type {number[]} */
  const found = [];
  for (let at = 0; at < corners.length; at++) {
    const [ax, ay] = elementAt(corners, at), [bx, by] = elementAt(corners, (at + 1) % corners.length);
    if ((ay <= y) !== (by <= y)) found.push(ax + (bx - ax) * (y - ay) / (by - ay));
  }
  return found.sort((one, other) => one - other);
}

/** Where on a stretch inside a contour places are tried: in its middle first. */
const PARTS = [0.5, 0.25, 0.75, 0.1, 0.9, 0.4, 0.6];

/**
 * Places on the stretches inside a contour, on a few lines across it: the middles first, and the widest first of these.
 * @param {Pair[]} corners
 * @param {number} lines how many lines
 * @returns {Pair[]}
 */
function insideOf(corners, lines) {
  let low = Infinity, high = -Infinity;
  for (const [, y] of corners) {
    low = Math.min(low, y);
    high = Math.max(high, y);
  }
  /** @type {{width: number, left: number, y: number}[]} */
  const found = [];
  for (let line = 1; line < lines; line++) {
    const y = low + (high - low) * line / lines + 0.5, across = crossings(corners, y);
    for (let at = 0; at + 1 < across.length; at += 2) {
      const left = elementAt(across, at);
      found.push({ width: elementAt(across, at + 1) - left, left, y });
    }
  }
  found.sort((one, other) => other.width - one.width);
  return PARTS.flatMap((part) => found.map(({ width, left, y }) => /** @type {Pair} */ ([left + width * part, y])));
}

/** So many lines cross a region, and so many parts a draw is tried in; more where all these places are cleared. */
const FEW = 8, MANY = 64;

/**
 * Places along a line of chords, from its start to its end.
 * @param {Pair[]} line
 * @param {number} parts
 * @returns {Pair[]}
 */
function along(line, parts) {
  return Array.from({ length: parts + 1 }, (_, at) => {
    const way = at / parts * (line.length - 1), first = Math.min(Math.floor(way), line.length - 2), part = way - first;
    const [x0, y0] = elementAt(line, first), [x1, y1] = elementAt(line, first + 1);
    return [x0 + (x1 - x0) * part, y0 + (y1 - y0) * part];
  });
}

/**
 * Places of a dark item that are copper by itself, in its own coordinates in nm: of a flash the centre first, of a draw or an arc
 * from its start to its end, of a region the middles of its widest stretches first.
 * @param {import("./flat_items.js").SaidItem} item
 * @param {boolean} isDense whether more places are wanted
 * @returns {Pair[]}
 */
export function placesOf({ words, offsets }, isDense = false) {
  const item = itemOf(words), parts = isDense ? MANY : FEW, [start] = item?.points ?? [];
  if (!item || !start) return [];
  const { kind } = item;
  if (kind === "flash") return offsets.map(([x, y]) => [start[0] + x, start[1] + y]);
  const lines = linesOfItem(words), [line] = lines;
  if (kind === "region") return insideOf([start, ...lines.flatMap((own) => own.slice(1))], parts);
  return line ? along(line, isDense ? MANY : 4) : [];
}

/**
 * The centre of an item that may be a pad or a hole: of a flash and a hit, of a rout with two ends, as a slot, and of the box
 * around a region's corners.
 * @param {string} words
 * @returns {Pair[]} one, or none
 */
export function centresOf(words) {
  const item = itemOf(words), [start] = item?.points ?? [];
  if (!item || !start) return [];
  const { kind, points } = item;
  if (kind === "flash" || kind === "hit") return [start];
  if (kind === "rout" && points.length === 2) return [middle(points)];
  return kind === "region" ? [middle([start, ...item.segments.map(({ to }) => to)])] : [];
}

/**
 * The middle of the box around places.
 * @param {Pair[]} places
 * @returns {Pair}
 */
function middle(places) {
  const [x0, y0, x1, y1] = places.reduce(([left, low, right, high], [x, y]) => [Math.min(left, x), Math.min(low, y), Math.max(right, x),
    Math.max(high, y)], [Infinity, Infinity, -Infinity, -Infinity]);
  return [(x0 + x1) / 2, (y0 + y1) / 2];
}
