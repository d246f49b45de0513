// Holes as strokes: hits, slots and flashes by their items, in nm; and which of them are near to others.

import { itemOf } from "../board/index.js";
import { elementAt } from "./lists.js";

/**
 * A hole: a stroke in nm along a line, and where it comes from.
 * @typedef {object} Hole
 * @property {[number, number][]} line one place, or the places of a slot or a rout
 * @property {number} radius
 * @property {boolean} isPlated
 * @property {number} layer which layer of holes it belongs to
 * @property {string} source as `plated 3`
 */

/**
 * The holes of a layer.
 * @param {import("./flat_items.js").FlatItem[]} flat
 * @param {{isPlated: (number: number | null) => boolean, layer: number, label: string}} layer
 * @returns {Hole[]}
 */
export function holesOf(flat, { isPlated, layer, label }) {
  return flat.flatMap(({ item, place, move, isDark }) => {
    const read = itemOf(item.words);
    if (!read || !isDark || !["hit", "rout", "flash", "draw"].includes(read.kind)) return [];
    return [{ line: read.points.slice(0, read.kind === "rout" ? undefined : read.kind === "draw" ? 2 : 1).map(move), radius: item.reach,
      isPlated: isPlated(read.number), layer, source: `${label} ${place}` }];
  });
}

/**
 * The segments of a line, one of its own place where it has one alone.
 * @param {[number, number][]} line
 * @returns {[[number, number], [number, number]][]}
 */
export function segmentsOf(line) {
  let [from] = line;
  if (!from) return [];
  if (line.length === 1) return [[from, from]];
  /** @type {[[number, number], [number, number]][]} */
  const segments = [];
  for (const to of line.slice(1)) {
    segments.push([from, to]);
    from = to;
  }
  return segments;
}

/**
 * The place of a segment that is nearest to a place.
 * @param {[[number, number], [number, number]]} segment
 * @param {[number, number]} place
 * @returns {[number, number]}
 */
function nearestOn([[x0, y0], [x1, y1]], [x, y]) {
  const dx = x1 - x0, dy = y1 - y0, square = dx * dx + dy * dy;
  const part = square ? Math.min(1, Math.max(0, ((x - x0) * dx + (y - y0) * dy) / square)) : 0;
  return [x0 + part * dx, y0 + part * dy];
}

/**
 * @param {[[number, number], [number, number]]} one
 * @param {[[number, number], [number, number]]} other
 */
function areCrossing([a, b], [c, d]) {
  /** @param {[number, number]} p @param {[number, number]} q @param {[number, number]} r */
  const side = (p, q, r) => Math.sign((q[0] - p[0]) * (r[1] - p[1]) - (q[1] - p[1]) * (r[0] - p[0]));
  return side(a, b, c) * side(a, b, d) < 0 && side(c, d, a) * side(c, d, b) < 0;
}

/**
 * The least distance of two lines, and a place of each there.
 * @param {[number, number][]} one
 * @param {[number, number][]} other
 * @returns {{distance: number, from: [number, number], to: [number, number]} | null} null where one of them has no place
 */
function between(one, other) {
  /** @type {{distance: number, from: [number, number], to: [number, number]} | null} */
  let best = null;
  for (const first of segmentsOf(one)) {
    for (const second of segmentsOf(other)) {
      /** @type {[[number, number], [number, number]][]} */
      const pairs = [[first[0], nearestOn(second, first[0])], [first[1], nearestOn(second, first[1])], [nearestOn(first, second[0]), second[0]],
        [nearestOn(first, second[1]), second[1]]];
      for (const [from, to] of pairs) {
        const distance = areCrossing(first, second) ? 0 : Math.hypot(from[0] - to[0], from[1] - to[1]);
        if (!best || distance < best.distance) best = { distance, from, to };
      }
    }
  }
  return best;
}

/**
 * The pairs of holes whose rims are nearer than a length, less than 0 where they overlap; nearest first. It is exact.
 * @param {Hole[]} holes
 * @param {number} most
 * @returns {{holes: [Hole, Hole], distance: number, from: [number, number], to: [number, number]}[]}
 */
export function nearHoles(holes, most) {
  const reach = holes.reduce((found, { radius }) => Math.max(found, radius), 0), cell = Math.max(1, 2 * reach + most);
  /** @type {Map<string, number[]>} */
  const cells = new Map();
  /** @type {{holes: [Hole, Hole], distance: number, from: [number, number], to: [number, number]}[]} */
  const found = [];
  /** @type {Set<string>} */
  const seen = new Set();
  const cellOf = (/** @type {number} */ side) => Math.floor(side / cell);
  holes.forEach((hole, number) => {
    for (const [[x0, y0], [x1, y1]] of segmentsOf(hole.line)) {
      const right = cellOf(Math.max(x0, x1)), high = cellOf(Math.max(y0, y1));
      for (let column = cellOf(Math.min(x0, x1)) - 1; column <= right + 1; column++) {
        for (let row = cellOf(Math.min(y0, y1)) - 1; row <= high + 1; row++) {
          for (const other of cells.get(`${column} ${row}`) ?? []) {
            const key = `${other} ${number}`;
            if (other === number || seen.has(key)) continue;
            const first = elementAt(holes, other), near = between(first.line, hole.line);
            if (!near) continue;
            const distance = near.distance - hole.radius - first.radius;
            if (distance >= most) continue;
            seen.add(key);
            found.push({ holes: [first, hole], distance, from: near.from, to: near.to });
          }
        }
      }
    }
    for (const [[x0, y0], [x1, y1]] of segmentsOf(hole.line)) {
      const right = cellOf(Math.max(x0, x1)), high = cellOf(Math.max(y0, y1));
      for (let column = cellOf(Math.min(x0, x1)); column <= right; column++) {
        for (let row = cellOf(Math.min(y0, y1)); row <= high; row++) {
          const key = `${column} ${row}`, known = cells.get(key);
          if (!known) cells.set(key, [number]);
          else if (!known.includes(number)) known.push(number);
        }
      }
    }
  });
  return found.sort((one, other) => one.distance - other.distance);
}
