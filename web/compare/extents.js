// How far items reach, by their words and what their apertures, blocks and tools are (canonical.js). A box holds all that
// its item paints; it leads to a place, so it may be a little larger.

import { joined } from "../board/index.js";

/** @typedef {import("../board/index.js").Box} Box */

/** A stroke askew is taken in pieces of this length, in nm: the box of the whole would hold much that it does not paint. */
const PIECE = 2_000_000;
const MOST_PIECES = 256;

/** @type {Box} */
const POINT = { left: 0, low: 0, right: 0, high: 0 };
// To the right, up, to the left and down.
/** @type {[x: number, y: number][]} */
const QUARTERS = [[1, 0], [0, 1], [-1, 0], [0, -1]];
/** @type {(text: string) => number} */
const nm = (text) => Math.round(Number(text) * 1e6);

/** @param {number} width @param {number} height @returns {Box} around (0, 0) */
function centred(width, height) {
  const x = Math.ceil(width / 2), y = Math.ceil(height / 2);
  return { left: -x, low: -y, right: x, high: y };
}

/** @param {Box} box @param {number} x @param {number} y @returns {Box} */
function shifted({ left, low, right, high }, x, y) {
  return { left: left + x, low: low + y, right: right + x, high: high + y };
}

/** @param {Box} box @param {Box} other @returns {Box} what both reach together from each place */
function widened(box, other) {
  return { left: box.left + other.left, low: box.low + other.low, right: box.right + other.right, high: box.high + other.high };
}

/** @param {number[]} points x and y in turn @returns {Box} */
function around(points) {
  const box = { left: Infinity, low: Infinity, right: -Infinity, high: -Infinity };
  for (let at = 0; at + 1 < points.length; at += 2) {
    const x = /** @type {number} */ (points[at]), y = /** @type {number} */ (points[at + 1]);
    box.left = Math.min(box.left, x);
    box.right = Math.max(box.right, x);
    box.low = Math.min(box.low, y);
    box.high = Math.max(box.high, y);
  }
  return box;
}

/**
 * A box under a turn: x is negated first in a mirror, then it is turned by quarters.
 * @param {Box} box
 * @param {string} turn `r0` to `m270`
 */
function turned(box, turn) {
  let { left, low, right, high } = turn[0] === "m" ? { ...box, left: -box.right, right: -box.left } : box;
  for (let quarters = Number(turn.slice(1)) / 90; quarters > 0; quarters--) {
    [left, low, right, high] = [-high, left, -low, right];
  }
  return { left, low, right, high };
}

/**
 * The box of a primitive, as `1,1,0.5,0,0,0*`: a disc, a bar by its ends, a bar by its centre, an outline.
 * @param {string} line
 * @returns {Box | null}
 */
function primitive(line) {
  const [code, , ...words] = line.replace("*", "").split(","), numbers = words.map(nm), [a = NaN, b = NaN, c = NaN, d = NaN] = numbers;
  if (code === "1") return shifted(centred(a, a), b, c);
  if (code === "20") return widened(around(numbers.slice(1, 5)), centred(a, a));
  if (code === "21") return shifted(centred(a, b), c, d);
  return code === "4" ? around(numbers.slice(1, -1)) : null;
}

/**
 * An arc's box, without the width of its pen.
 * @param {number[]} ends start, end and centre
 * @param {boolean} isClockwise
 */
function arcBox([sx = NaN, sy = NaN, ex = NaN, ey = NaN, cx = NaN, cy = NaN], isClockwise) {
  const radius = Math.max(Math.hypot(sx - cx, sy - cy), Math.hypot(ex - cx, ey - cy)), round = 2 * Math.PI;
  const start = Math.atan2(sy - cy, sx - cx), end = Math.atan2(ey - cy, ex - cx);
  const isWhole = sx === ex && sy === ey, box = around([sx, sy, ex, ey]);
  // How far a place of the circle lies from the start, along the arc.
  const along = (/** @type {number} */ angle) => ((isClockwise ? start - angle : angle - start) % round + round) % round;
  const passes = (/** @type {number} */ angle) => isWhole || along(angle) <= along(end);
  return joined([box, ...QUARTERS.filter((_, quarter) => passes(quarter * Math.PI / 2)).map(([x, y]) =>
    around([Math.floor(cx + x * radius), Math.floor(cy + y * radius), Math.ceil(cx + x * radius), Math.ceil(cy + y * radius)]))]) ?? box;
}

/**
 * The segments of a region in the words that `region` has, each with the point that it begins at.
 * @param {readonly string[]} words
 * @returns {{kind: string, numbers: number[]}[]} numbers: start, end, and the centre of an arc
 */
export function segmentsOf(words) {
  /** @type {{kind: string, numbers: number[]}[]} */
  const segments = [];
  let x = Number(words[2]), y = Number(words[3]), at = 4;
  for (let kind = words[at]; kind !== undefined; kind = words[at]) {
    const count = kind === "l" ? 2 : 4, numbers = [x, y, ...words.slice(at + 1, at + 1 + count).map(Number)];
    segments.push({ kind, numbers });
    [, , x = NaN, y = NaN] = numbers;
    at += 1 + count;
  }
  return segments;
}

/** @param {{kind: string, numbers: number[]}} segment */
export function segmentBox({ kind, numbers }) {
  return kind === "l" ? around(numbers) : arcBox(numbers, kind === "cw");
}

/** The boxes of items whose shapes are these. */
export class Extents {
  /** @param {import("./canonical.js").Shapes} shapes */
  constructor(shapes) {
    this.shapes = shapes;
    /** @type {Map<number, Box>} */
    this.known = new Map();
  }

  /**
   * What a flash of a shape at (0, 0) reaches.
   * @param {number} number
   * @returns {Box}
   */
  shape(number) {
    let box = this.known.get(number);
    if (!box) this.known.set(number, box = this.reach(this.shapes.texts[number] ?? "") ?? POINT);
    return box;
  }

  /** @param {string} text @returns {Box | null} */
  reach(text) {
    const [, sizes = ""] = text.split(","), [side = NaN, other = NaN] = sizes.split("X").map(nm), lines = text.slice(1).split("\n");
    switch (text[0]) {
      case "C": return centred(side, side);
      case "R":
      case "O": return centred(side, other);
      case "T": return centred(nm(text.slice(1)), nm(text.slice(1)));
      case "M": return joined(lines.map(primitive));
      default: return joined(lines.filter((line) => line).map((line) => this.box(line)));
    }
  }

  /**
   * The box of an item.
   * @param {string} item
   * @returns {Box}
   */
  box(item) {
    const [head = "", ...objects] = item.split("\n  "), words = head.split(" ");
    if (words[0] === "repeat") return this.repeat(words, objects);
    if (words[0] === "region") return joined(segmentsOf(words).map(segmentBox)) ?? around([Number(words[2]), Number(words[3])]);
    const reach = this.shape(Number(words[1])), numbers = words.slice(2).map(Number), [x = NaN, y = NaN] = numbers;
    switch (words[0]) {
      case "flash": return shifted(turned(reach, words[4] ?? "r0"), x, y);
      case "draw": return widened(around(numbers.slice(0, 4)), turned(reach, words[6] ?? "r0"));
      case "arc": return widened(arcBox(numbers, words[8] === "cw"), reach);
      default: return widened(around(numbers), reach);
    }
  }

  /** @param {string[]} words @param {string[]} objects */
  repeat(words, objects) {
    const [columns = NaN, rows = NaN, stepX = NaN, stepY = NaN] = words.slice(1).map(Number), box = joined(objects.map((object) => this.box(object))) ?? POINT;
    return joined([box, shifted(box, (columns - 1) * stepX, (rows - 1) * stepY)]) ?? box;
  }

  /**
   * Boxes that hold an item together: of a long stroke askew several.
   * @param {string} item
   * @returns {Box[]}
   */
  boxes(item) {
    const words = item.split(" ");
    if (words[0] !== "draw" && words[0] !== "rout") return [this.box(item)];
    const reach = this.shape(Number(words[1])), pen = words[0] === "draw" ? turned(reach, words[6] ?? "r0") : reach;
    const points = words.slice(2, words[0] === "draw" ? 6 : undefined).map(Number);
    /** @type {Box[]} */
    const found = [];
    if (points.length < 4) return [this.box(item)];
    for (let at = 0; at + 3 < points.length; at += 2) found.push(...pieces(points.slice(at, at + 4)));
    return found.map((box) => widened(box, pen));
  }
}

/** @param {number[]} line from a point to another */
function pieces([sx = NaN, sy = NaN, ex = NaN, ey = NaN]) {
  const across = ex - sx, up = ey - sy;
  const count = Math.min(MOST_PIECES, Math.max(1, Math.ceil(Math.min(Math.abs(across), Math.abs(up)) / PIECE)));
  const place = (/** @type {number} */ at) => [sx + Math.round(across * at / count), sy + Math.round(up * at / count)];
  return Array.from({ length: count }, (_, at) => around([...place(at), ...place(at + 1)]));
}
