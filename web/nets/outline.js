// The closed lines of an outline, along which copper is cut: the middles of its draws and arcs, and the contours of its regions.

import { itemOf } from "../board/index.js";


/** @typedef {[number, number]} Pair a place in nm */
/** @typedef {Pair[]} Line from its first place to its last; an arc is cut into chords */

/** Ends of lines that are nearer to each other than this are one, in nm. */
const JOINED = 10_000;
/** The chords of an arc are as near to it, in nm. */
const SAGITTA = 1_000;

/**
 * An arc as chords.
 * @param {Pair} from
 * @param {Pair} to
 * @param {Pair} centre
 * @param {boolean} isClockwise
 * @returns {Line}
 */
function chords([fromX, fromY], [toX, toY], [x, y], isClockwise) {
  const radius = Math.hypot(fromX - x, fromY - y), start = Math.atan2(fromY - y, fromX - x);
  let turn = Math.atan2(toY - y, toX - x) - start;
  if (isClockwise && turn >= 0) turn -= 2 * Math.PI;
  if (!isClockwise && turn <= 0) turn += 2 * Math.PI;
  const step = 2 * Math.acos(Math.max(0.5, 1 - SAGITTA / Math.max(radius, 1))), count = Math.max(1, Math.ceil(Math.abs(turn) / step));
  return Array.from({ length: count + 1 }, (_, at) => {
    if (at === 0) return [fromX, fromY];
    if (at === count) return [toX, toY];
    const angle = start + turn * at / count;
    return [x + radius * Math.cos(angle), y + radius * Math.sin(angle)];
  });
}

/**
 * The lines of an item.
 * @param {string} words as `insert` takes them
 * @returns {Line[]}
 */
export function linesOfItem(words) {
  const item = itemOf(words);
  if (!item) return [];
  const [start, end, middle] = item.points;
  if (!start) return [];
  if (item.kind === "draw") return end ? [[start, end]] : [];
  if (item.kind === "arc") return end && middle ? [chords(start, end, middle, item.direction === "cw")] : [];
  if (item.kind !== "region") return [];
  let from = start;
  return item.segments.map(({ kind, to, centre }) => {
    const line = centre ? chords(from, to, centre, kind === "cw") : [from, to];
    from = to;
    return line;
  });
}

/**
 * Where lines end: the lines that do, and how many of their ends are there and not taken away.
 * @typedef {{place: Pair, own: Joined[], degree: number}} End
 *
 * A line with its ends; it `isOpen` once it is taken away.
 * @typedef {{line: Line, from: End, to: End, isOpen: boolean}} Joined
 */

/** Ends of lines, those that are near as one. */
class Ends {
  constructor() {
    /** @type {Map<string, End>} */
    this.known = new Map();
  }

  /** @param {Pair} place */
  endAt([x, y]) {
    const column = Math.floor(x / JOINED), row = Math.floor(y / JOINED);
    for (let across = -1; across <= 1; across++) {
      for (let up = -1; up <= 1; up++) {
        const found = this.known.get(`${column + across} ${row + up}`);
        if (found) return found;
      }
    }
    /** @type {End} */
    const end = { place: [x, y], own: [], degree: 0 };
    this.known.set(`${column} ${row}`, end);
    return end;
  }

  /** @param {Line} line @returns {Joined[]} none of a line without a place */
  joined(line) {
    const first = line[0], last = line.at(-1);
    if (!first || !last) return [];
    const from = this.endAt(first), to = this.endAt(last), joined = { line, from, to, isOpen: false };
    for (const end of [from, to]) end.degree = end.own.push(joined);
    return [joined];
  }
}

/**
 * The lines that lie on closed ways: those that stay when lines with an end that no other line has are taken away.
 * @param {Line[]} lines
 * @returns {{closed: Line[], open: number}} `open` counts the others
 */
export function closedLines(lines) {
  const ends = new Ends(), joined = lines.flatMap((line) => ends.joined(line));
  const waiting = [...ends.known.values()].filter(({ degree }) => degree === 1);
  for (let end = waiting.pop(); end; end = waiting.pop()) {
    for (const line of end.own.filter(({ isOpen }) => !isOpen)) {
      line.isOpen = true;
      for (const other of [line.from, line.to]) if (--other.degree === 1) waiting.push(other);
    }
  }
  const closed = joined.flatMap(({ line, from, to, isOpen }) => (isOpen ? [] : [[from.place, ...line.slice(1, -1), to.place]]));
  return { closed, open: lines.length - closed.length };
}
