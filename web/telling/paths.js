// The items of a layer by their words, and what follows from their points alone: lengths, corners and boxes.

/** @typedef {import("./measures.js").Pair} Pair */
/** @typedef {import("./measures.js").Length} Length */
/** @typedef {{left: number, low: number, right: number, high: number, isExact: boolean}} Box */

/**
 * A side of a region, or a stroke's way: a line, or with a centre an arc.
 * @typedef {{from: Pair, to: Pair, centre: Pair | null, isClockwise: boolean}} Way
 */

/**
 * What an item has, in the words of a line that inserts it (docs/formats.md, "Scripts"): the number of its aperture or tool; the
 * point of a flash or a hit, those of a rout, else the start; the ways of a draw, an arc, a region and a rout; the turn of a flash
 * and a draw, r0 to r270, m0 to m270; and what a repeat is.
 * @template {string} K
 * @template {number | null} N
 * @template {Pair[]} P
 * @template {Way[]} W
 * @template R
 * @typedef {{kind: K, number: N, points: P, ways: W, turn: string, isDark: boolean, repeat: R}} Worded
 */
/** @typedef {{columns: number, rows: number, stepX: number, stepY: number, objects: number}} Repeat */
/**
 * @typedef {Worded<"flash", number, [at: Pair], never[], null>} Flash
 * @typedef {Worded<"draw" | "arc", number, [start: Pair], [Way], null>} Stroke
 * @typedef {Worded<"region", null, [start: Pair], Way[], null>} Region
 * @typedef {Worded<"hit", number, [at: Pair], never[], null>} Hit
 * @typedef {Worded<"rout", number, [start: Pair, ...more: Pair[]], Way[], null>} Rout
 * @typedef {Worded<"repeat", null, never[], never[], Repeat>} Repeated
 * @typedef {Flash | Stroke | Region | Hit | Rout | Repeated} Item
 */

/** @param {string[]} words @param {number} from @returns {Pair} */
const pair = (words, from) => [Number(words[from]), Number(words[from + 1])];

/** @param {Pair} from @param {Pair} to @param {Pair | null} centre @returns {Way} */
const way = (from, to, centre = null, isClockwise = false) => ({ from, to, centre, isClockwise });

/** @param {string[]} words @param {number} first @returns {Way[]} */
function waysOf(words, first) {
  /** @type {Way[]} */
  const ways = [];
  let from = pair(words, first), at = first + 2;
  while (at < words.length) {
    const isLine = words[at] === "l", to = pair(words, at + 1);
    ways.push(isLine ? way(from, to) : way(from, to, pair(words, at + 3), words[at] === "cw"));
    from = to;
    at += isLine ? 3 : 5;
  }
  return ways;
}

/** @param {string[]} words @returns {Rout} */
function routOf(words) {
  /** @type {Rout["points"]} */
  const points = [pair(words, 2)];
  /** @type {Way[]} */
  const ways = [];
  for (let at = 4, [from] = points; at + 1 < words.length; at += 2) {
    const to = pair(words, at);
    points.push(to);
    ways.push(way(from, to));
    from = to;
  }
  return { ...OTHER, kind: "rout", number: Number(words[1]), points, ways };
}

/** @param {string[]} words @returns {Repeated} */
function repeatOf(words) {
  const [columns = NaN, rows = NaN, stepX = NaN, stepY = NaN, objects = NaN] = words.slice(1, 6).map(Number);
  return { ...OTHER, kind: "repeat", number: null, points: [], ways: [], repeat: { columns, rows, stepX, stepY, objects } };
}

// What items have where their words say nothing else.
const OTHER = { turn: "r0", isDark: true, repeat: null };

/** @param {string[]} words @returns {Item | null} */
function itemBy(words) {
  const [kind] = words, number = Number(words[1]), at = pair(words, 2);
  switch (kind) {
    case "flash": return { ...OTHER, kind, number, points: [at], ways: [], turn: words[4] ?? "r0", isDark: words[5] !== "clear" };
    case "draw": return { ...OTHER, kind, number, points: [at], ways: [way(at, pair(words, 4))], turn: words[6] ?? "r0", isDark: words[7] !== "clear" };
    case "arc": return { ...OTHER, kind, number, points: [at], ways: [way(at, pair(words, 4), pair(words, 6), words[8] === "cw")],
      isDark: words[9] !== "clear" };
    case "region": return { ...OTHER, kind, number: null, points: [at], ways: waysOf(words, 2), isDark: words[1] !== "clear" };
    case "hit": return { ...OTHER, kind, number, points: [at], ways: [] };
    case "rout": return routOf(words);
    case "repeat": return repeatOf(words);
    default: return null;
  }
}

/**
 * An item by its words.
 * @param {string} line
 * @returns {Item | null} null where the words are none of an item
 */
export function itemOf(line) {
  const item = itemBy(line.trim().split(/\s+/));
  return item && isWhole(item) ? item : null;
}

// Whether all its places are in whole nm, as those of a station are.
/** @param {{number: number | null, points: Pair[], ways: Way[], repeat: Repeat | null}} item */
function isWhole({ number, points, ways, repeat }) {
  const places = [...points, ...ways.flatMap(({ to, centre }) => centre ? [to, centre] : [to])];
  return [number ?? 0, ...repeat ? Object.values(repeat) : [], ...places.flat()].every(Number.isSafeInteger);
}

/** @type {string[]} */
const NO_OBJECTS = [];

/**
 * The lines of items, each with those of its objects: they follow that of their repeat, after two spaces.
 * @param {readonly string[]} lines
 * @returns {{words: string, objects: string[]}[]}
 */
export function itemsOf(lines) {
  /** @type {{words: string, objects: string[]}[]} */
  const items = [];
  for (const line of lines) {
    const last = items.at(-1);
    if (!line.startsWith(" ") || !last) items.push({ words: line, objects: NO_OBJECTS });
    else if (last.objects === NO_OBJECTS) last.objects = [line.trim()];
    else last.objects.push(line.trim());
  }
  return items;
}

/** @param {Pair} one @param {Pair} other */
const isSame = ([ax, ay], [bx, by]) => ax === bx && ay === by;

/**
 * How far two places are from one another.
 * @param {Pair} one
 * @param {Pair} other
 * @returns {Length}
 */
export function distance([ax, ay], [bx, by]) {
  const dx = bx - ax, dy = by - ay, nm = Math.hypot(dx, dy), whole = Math.round(nm);
  const isExact = BigInt(whole) ** 2n === BigInt(dx) ** 2n + BigInt(dy) ** 2n;
  return { nm: isExact ? whole : nm, isExact };
}

/** @param {Way} arc @returns {number} */
function sweepOf({ from, to, centre, isClockwise }) {
  if (!centre || isSame(from, to)) return 2 * Math.PI;
  const [x, y] = centre, start = Math.atan2(from[1] - y, from[0] - x), end = Math.atan2(to[1] - y, to[0] - x);
  const turn = (isClockwise ? start - end : end - start) % (2 * Math.PI);
  return turn <= 0 ? turn + 2 * Math.PI : turn;
}

/** @param {Way} way @returns {boolean} whether it is a circle that ends where it starts */
export const isCircle = ({ from, to, centre }) => centre !== null && isSame(from, to);

/**
 * How long ways are, one after another.
 * @param {Way[]} ways
 * @returns {Length}
 */
export function lengthOf(ways) {
  let nm = 0, isExact = true;
  for (const way of ways) {
    const length = way.centre ? { nm: distance(way.from, way.centre).nm * sweepOf(way), isExact: false } : distance(way.from, way.to);
    nm += length.nm;
    isExact &&= length.isExact;
  }
  return { nm, isExact };
}

/**
 * The corners of a contour, each once, in their order.
 * @param {Way[]} ways
 * @returns {Pair[]}
 */
export function cornersOf(ways) {
  const [first] = ways;
  if (!first) return [];
  const corners = [first.from];
  let last = first.from;
  for (const { to } of ways) {
    if (!isSame(to, last)) corners.push(to);
    last = to;
  }
  if (corners.length > 1 && isSame(first.from, last)) corners.pop();
  return corners;
}

// Where a direction lies: an even number on an axis, counterclockwise from the one to the right, an odd one between two.
/** @param {number} x @param {number} y */
function octant(x, y) {
  if (y === 0) return x >= 0 ? 0 : 4;
  if (x === 0) return y > 0 ? 2 : 6;
  if (y > 0) return x > 0 ? 1 : 3;
  return x < 0 ? 5 : 7;
}

// Which axes an arc passes between its ends, by the numbers of `octant`; exactly, without angles.
/** @param {Way} arc @returns {number[]} */
function passed({ from, to, centre, isClockwise }) {
  if (!centre) return [];
  if (isSame(from, to)) return [0, 2, 4, 6];
  const [first, last] = isClockwise ? [to, from] : [from, to];
  const [ax, ay] = [first[0] - centre[0], first[1] - centre[1]], [bx, by] = [last[0] - centre[0], last[1] - centre[1]];
  const start = octant(ax, ay), end = octant(bx, by);
  const isBack = start === end && BigInt(ax) * BigInt(by) < BigInt(ay) * BigInt(bx);
  const steps = isBack ? 8 : (end - start + 8) % 8;
  return Array.from({ length: Math.max(0, steps - 1) }, (_, at) => (start + 1 + at) % 8).filter((number) => number % 2 === 0);
}

/** @param {Way} arc @returns {{points: Pair[], isExact: boolean}} the points of an arc that reach farthest */
function reaches(arc) {
  const axes = passed(arc);
  if (!arc.centre || !axes.length) return { points: [], isExact: true };
  const [x, y] = arc.centre, { nm, isExact } = distance(arc.from, arc.centre);
  /** @param {number} axis @returns {Pair} */
  const at = (axis) => axis === 0 ? [x + nm, y] : axis === 2 ? [x, y + nm] : axis === 4 ? [x - nm, y] : [x, y - nm];
  return { points: axes.map(at), isExact };
}

/**
 * The box of ways, along their middles.
 * @param {Way[]} ways
 * @returns {Box | null}
 */
export function boxOf(ways) {
  /** @type {Box | null} */
  let box = null;
  for (const way of ways) {
    const { points, isExact } = reaches(way);
    for (const [x, y] of [way.from, way.to, ...points]) box = joined(box, { left: x, low: y, right: x, high: y, isExact });
  }
  return box;
}

/**
 * The box around two.
 * @param {Box | null} one
 * @param {Box | null} other
 * @returns {Box | null}
 */
export function joined(one, other) {
  if (!one || !other) return one ?? other;
  return { left: Math.min(one.left, other.left), low: Math.min(one.low, other.low), right: Math.max(one.right, other.right),
    high: Math.max(one.high, other.high), isExact: one.isExact && other.isExact };
}

/**
 * The sides of a box.
 * @param {Box} box
 */
export function sidesOf({ left, low, right, high, isExact }) {
  return { width: { nm: right - left, isExact }, height: { nm: high - low, isExact } };
}

/**
 * A box that is moved.
 * @param {Box} box
 * @param {number} dx
 * @param {number} dy
 * @returns {Box}
 */
export function moved({ left, low, right, high, isExact }, dx, dy) {
  return { left: left + dx, low: low + dy, right: right + dx, high: high + dy, isExact };
}

/**
 * A box as a flash turns it: x is negated first in a mirror, then it is turned counterclockwise.
 * @param {Box} box
 * @param {string} turn r0 to r270, m0 to m270
 * @returns {Box}
 */
export function turned(box, turn) {
  let { left, low, right, high } = box;
  if (turn.startsWith("m")) [left, right] = [-right, -left];
  for (let quarters = Number(turn.slice(1)) / 90; quarters > 0; quarters--) [left, low, right, high] = [-high, left, -low, right];
  return { left, low, right, high, isExact: box.isExact };
}
