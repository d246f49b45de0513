// The words of an item after a quarter turn or a mirror about a point. A turn is as an item has it: r0 to r270, or m0 to m270,
// where x is negated before it is turned counterclockwise.

import { itemOf } from "./items.js";

// Where each turn takes a point, about (0, 0).
/** @type {Record<string, (point: Board.Pair) => Board.Pair>} */
const MAPS = {
  r0: ([x, y]) => [x, y], r90: ([x, y]) => [-y, x], r180: ([x, y]) => [-x, -y], r270: ([x, y]) => [y, -x],
  m0: ([x, y]) => [-x, y], m90: ([x, y]) => [-y, -x], m180: ([x, y]) => [x, -y], m270: ([x, y]) => [y, x],
};

/** @param {string} turn */
const isMirrored = (turn) => turn[0] === "m";
/** @param {string} turn */
const angleOf = (turn) => Number(turn.slice(1));

// The turn that does what one does, and then the next one. A mirror that comes later reverses the angle before it.
/** @param {string} turn @param {string} next */
export function then(turn, next) {
  const angle = (isMirrored(next) ? 360 - angleOf(turn) : angleOf(turn)) + angleOf(next);
  return `${isMirrored(turn) === isMirrored(next) ? "r" : "m"}${angle % 360}`;
}

// A half goes to the even neighbour.
/** @param {number} value */
const even = (value) => Number.isInteger(value) ? value : 2 * Math.round(value / 2);

/**
 * The middle about which a turn takes whole nm to whole nm, as the sums of the box's edges: twice its coordinates. The least
 * change of the box's own middle, and such that the middle of the turned box gives the same again: so two mirrors, and four
 * quarter turns, change nothing.
 * @param {Board.Box} box
 * @param {string} turn
 */
export function middleFor({ left, low, right, high }, turn) {
  let x = even(left + right), y = even(low + high);
  // A quarter turn exchanges x and y, so that both are in whole nm, or both half way between.
  if (angleOf(turn) % 180 !== 0 && (x + y) % 2 !== 0) {
    const by = (x + y + 1) % 4 === 0 ? 1 : -1;
    if (x % 2 !== 0) x += by;
    else y += by;
  }
  return { x, y };
}

// Where a turn about a middle, that `middleFor` gave, takes a point.
/** @param {string} turn @param {Board.Point} middle @returns {(point: Board.Pair) => Board.Pair} */
function about(turn, { x, y }) {
  const map = MAPS[turn];
  if (!map) throw new RangeError(`${turn} is no turn`);
  const [atX, atY] = map([x, y]), dx = (x - atX) / 2, dy = (y - atY) / 2;
  return (point) => {
    const [toX, toY] = map(point);
    return [toX + dx, toY + dy];
  };
}

/** @type {Record<string, string>} */
const OTHER = { cw: "ccw", ccw: "cw" };

// The words of the turned item; null where there are no such words, as of a repeat.
/** @param {string} text @param {string} turn @param {Board.Point} middle */
export function turned(text, turn, middle) {
  const item = itemOf(text);
  if (!item) return null;
  const place = about(turn, middle);
  /** @param {string} direction */
  const directed = (direction) => isMirrored(turn) ? OTHER[direction] ?? direction : direction;
  const { kind, number } = item, points = item.points.map((point) => place(point).join(" ")).join(" ");
  switch (kind) {
    case "flash":
    case "draw": return `${kind} ${number} ${points} ${then(item.turn, turn)} ${item.polarity}`;
    case "arc": return `arc ${number} ${points} ${directed(item.direction)} ${item.polarity}`;
    case "region": return [`region ${item.polarity} ${points}`, ...item.segments.map((segment) =>
      [directed(segment.kind), ...place(segment.to), ...segment.centre ? place(segment.centre) : []].join(" "))].join(" ");
    default: return `${kind} ${number} ${points}`;
  }
}
