// The paths of items: how long they are, and the boxes that they lie in, at whole nm.

import { far, itemOf, joined } from "../../web/board/index.js";

const TURN = 2 * Math.PI;
/** @param {number} from @param {number} to */
const turnOf = (from, to) => ((to - from) % TURN + TURN) % TURN;

// The points farthest right, up, left and down of an arc's circle that it passes, at whole nm.
/** @param {Board.Pair} from @param {Board.Segment} segment @param {Board.Pair} centre @returns {Board.Pair[]} */
function passed([sx, sy], { kind, to: [ex, ey] }, [x, y]) {
  const start = Math.atan2(sy - y, sx - x), end = Math.atan2(ey - y, ex - x), isClockwise = kind === "cw";
  const first = isClockwise ? end : start, last = isClockwise ? start : end, sweep = turnOf(first, last) || TURN;
  const radius = Math.ceil(Math.sqrt((sx - x) ** 2 + (sy - y) ** 2));
  /** @type {Board.Pair[]} */
  const ends = [[radius, 0], [0, radius], [-radius, 0], [0, -radius]];
  return ends.filter(([dx, dy]) => turnOf(first, Math.atan2(dy, dx)) <= sweep)
    .map(([dx, dy]) => [x + dx, y + dy]);
}

/**
 * The box of a contour, or of a path: a station's has the whole circles of its arcs.
 * @param {Board.Pair} start
 * @param {Board.Segment[]} segments
 */
export function contourBox(start, segments) {
  const all = [start];
  let from = start;
  for (const segment of segments) {
    all.push(segment.to, ...(segment.centre ? passed(from, segment, segment.centre) : []));
    from = segment.to;
  }
  return joined(all.map(([x, y]) => ({ left: x, low: y, right: x, high: y })));
}

/**
 * How long a path is.
 * @param {Board.Pair[]} points
 */
export function lengthOf([first, ...others]) {
  let length = 0, before = first;
  for (const point of others) {
    if (before) length += far(before, point);
    before = point;
  }
  return length;
}

// The box of the path of an item, without the width of its pen; null of a flash.
/** @param {string} words */
function pathBox(words) {
  const item = itemOf(words);
  if (item?.kind === "region") {
    const [start] = item.points;
    return start ? contourBox(start, item.segments) : null;
  }
  if (item?.kind === "draw") {
    const [start, to] = item.points;
    return start && to ? contourBox(start, [{ kind: "l", to, centre: null }]) : null;
  }
  if (item?.kind !== "arc") return null;
  const [start, to, centre] = item.points;
  return start && to && centre ? contourBox(start, [{ kind: item.direction, to, centre }]) : null;
}

/**
 * The box of the paths of items.
 * @param {string[]} items none is a repeat
 * @returns {import("../../web/board/index.js").Box | null}
 */
export function pathsBox(items) {
  return joined(items.map(pathBox));
}
