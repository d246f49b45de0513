// Strokes for tests: all places no farther than a radius from a segment; a disc is one whose ends are one place.

import { pbm } from "./pictures.js";

/**
 * How far a place is from a segment.
 * @param {number[]} place
 * @param {number[][]} segment
 */
export function toSegment([x, y], [[x0, y0], [x1, y1]]) {
  const dx = x1 - x0, dy = y1 - y0, square = dx * dx + dy * dy, part = square ? Math.min(1, Math.max(0, ((x - x0) * dx + (y - y0) * dy) / square)) : 0;
  return Math.hypot(x - x0 - part * dx, y - y0 - part * dy);
}

/**
 * How far two segments are apart: 0 where they cross, else by their ends.
 * @param {number[][]} one
 * @param {number[][]} other
 */
export function apart(one, other) {
  const [a, b] = one, [c, d] = other, side = (p, q, r) => (q[0] - p[0]) * (r[1] - p[1]) - (q[1] - p[1]) * (r[0] - p[0]);
  if (side(a, b, c) * side(a, b, d) < 0 && side(c, d, a) * side(c, d, b) < 0) return 0;
  return Math.min(toSegment(a, other), toSegment(b, other), toSegment(c, one), toSegment(d, one));
}

/**
 * The place in nm of one in pixels, where a pixel's centre has its column and its row as coordinates.
 * @param {number} side
 * @param {number} pitch
 * @returns {(place: number[]) => [number, number]}
 */
export function nmOf(side, pitch) {
  return ([x, y]) => [(x + 0.5) * pitch, (side - 0.5 - y) * pitch];
}

/**
 * The PBM file whose pixels are black where their centres lie in a stroke.
 * @param {{line: number[][], radius: number}[]} strokes
 * @param {number} side
 */
export function paintedBy(strokes, side) {
  const black = new Uint8Array(side * side);
  for (const { line, radius } of strokes) {
    const [from, to = from] = line, [x0, y0] = from, [x1, y1] = to, left = Math.max(0, Math.floor(Math.min(x0, x1) - radius)), right = Math.min(side - 1, Math.max(x0, x1) + radius);
    for (let row = Math.max(0, Math.floor(Math.min(y0, y1) - radius)); row <= Math.min(side - 1, Math.max(y0, y1) + radius); row++) {
      for (let column = left; column <= right; column++) if (toSegment([column, row], [from, to]) <= radius) black[row * side + column] = 1;
    }
  }
  return pbm(side, side, (column, row) => black[row * side + column] === 1);
}
