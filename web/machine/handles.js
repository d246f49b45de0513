// The points by which an item is given another shape: the ends of a draw, the ends and the middle of an arc, the points of a rout,
// the corners of a region. What is dragged is words of the same item with other points.

import { arcThrough, itemOf, middleOf, sidesOfRegion } from "../board/index.js";

/** @param {Board.Pair} point @returns {Board.Pair} */
const whole = ([x, y]) => [Math.round(x), Math.round(y)];
/** @param {Board.Pair} one @param {Board.Pair} other */
const isSame = (one, other) => one[0] === other[0] && one[1] === other[1];
/** @param {boolean | undefined} isClockwise */
const opposite = (isClockwise) => isClockwise ? "cw" : "ccw";

/** @param {Board.ArcItem} item @returns {Board.Arc} */
const arcOf = ({ points: [from, to, centre], direction }) => ({ from, to, centre, isClockwise: direction === "cw" });

// The points of a region, the first one once.
/** @param {Board.Region} item @returns {Board.Pair[]} */
const cornersOf = ({ points, segments }) => {
  const ends = segments.map(({ to }) => to), last = ends.at(-1), isClosed = last !== undefined && isSame(last, points[0]);
  return [points[0], ...isClosed ? ends.slice(0, -1) : ends];
};

/**
 * The handles of an item, in the order in which `reshaped` counts them: points in nm.
 * @param {string} words
 * @returns {Board.Pair[]}
 */
export function handlesOf(words) {
  const item = itemOf(words);
  switch (item?.kind) {
    case "draw":
    case "rout": return item.points;
    case "arc": return isSame(item.points[0], item.points[1]) ? [item.points[0]] : [item.points[0], item.points[1], whole(middleOf(arcOf(item)))];
    case "region": return cornersOf(item);
    default: return [];
  }
}

// An arc from and to other points that passes through the middle of the one before; a full circle keeps its centre. Null where
// there is none.
/** @param {Board.Arc} before @param {Board.Pair} from @param {Board.Pair} to @returns {Board.Arc | null} */
function arcBetween(before, from, to) {
  if (isSame(before.from, before.to)) return { ...before, from, to };
  const found = isSame(from, to) ? null : arcThrough(from, middleOf(before), to);
  return found && { from, to, centre: whole(found.centre), isClockwise: found.isClockwise };
}

/** @param {Board.ArcItem} item @param {number} at @param {Board.Pair} to */
function arcWords(item, at, to) {
  const { number, polarity } = item, before = arcOf(item), { from, to: end } = before;
  const isCircle = isSame(from, end), through = at === 2 ? arcThrough(from, to, end) : null;
  const made = isCircle ? { ...before, from: to, to } : at === 2 ? through && { from, to: end, ...through }
    : arcBetween(before, at === 0 ? to : from, at === 1 ? to : end);
  if (!made) return null;
  const centre = whole(made.centre);
  return isSame(centre, made.from) ? null
    : `arc ${number} ${[made.from, made.to, centre].flat().join(" ")} ${opposite(made.isClockwise)} ${polarity}`;
}

// The sides of a region with one of its points elsewhere; null where an arc beside it would be none.
/** @param {Board.Region} item @param {number} at @param {Board.Pair} to */
function regionWords(item, at, to) {
  const was = cornersOf(item)[at];
  /** @type {Board.Side[]} */
  const sides = [];
  /** @param {Board.Pair} point */
  const of = (point) => was && isSame(point, was) ? to : point;
  for (const [number, side] of sidesOfRegion(item).entries()) {
    // (only the sides beside the point: another corner may stand at the same place)
    const count = item.segments.length, isFrom = number === at, isTo = (number + 1) % count === at % count;
    const from = isFrom ? of(side.from) : side.from, end = isTo ? of(side.to) : side.to, { centre } = side;
    const isKept = !centre || isSame(from, side.from) && isSame(end, side.to);
    const made = isKept ? { ...side, from, to: end } : arcBetween({ ...side, centre }, from, end);
    if (!made || !isKept && made.centre && isSame(made.centre, from)) return null;
    sides.push(made);
  }
  const [first] = sides;
  if (!first) return null;
  const words = sides.map(({ to: end, centre, isClockwise }) => centre ? `${opposite(isClockwise)} ${[end, centre].flat().join(" ")}`
    : `l ${end.join(" ")}`);
  return `region ${item.polarity} ${first.from.join(" ")} ${words.join(" ")}`;
}

/**
 * The words of an item whose handle `at` is elsewhere; null where there is no such item.
 * @param {string} words
 * @param {number} at
 * @param {Board.Pair} to
 */
export function reshaped(words, at, to) {
  const item = itemOf(words);
  if (item?.kind === "arc") return arcWords(item, at, to);
  if (item?.kind === "region") return regionWords(item, at, to);
  /** @param {Board.Pair[]} points */
  const moved = (points) => points.map((point, place) => place === at ? to : point).flat().join(" ");
  if (item?.kind === "rout") return `rout ${item.number} ${moved(item.points)}`;
  return item?.kind === "draw" ? `draw ${item.number} ${moved(item.points)} ${item.turn} ${item.polarity}` : null;
}
