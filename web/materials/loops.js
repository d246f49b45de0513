// What closed lines enclose: for each group of lines that hang together the one way around all of it. A place is in the group if
// it is in that way, and the groups that a place is in are as many as lines are crossed from outside.

import { Union } from "../nets/index.js";

/** @typedef {[number, number]} Pair a place in nm */
/** @typedef {[Pair, ...Pair[]]} Way */
/** @typedef {[from: number, to: number]} Piece of a line, by the numbers of its places */
/** @typedef {{lines: Pair[][], way: Way}} Loop the lines that hang together, and the way around them, from a place to the same */

/** Lines that are nearer to each other than this touch, in nm: so little moves no pixel that a person sees. */
const TOUCH = 1000;

/** Places by numbers, each once. */
class Places {
  constructor() {
    /** @type {Map<string, number>} */
    this.known = new Map();
    /** @type {Pair[]} */
    this.list = [];
  }

  /** @param {Pair} place */
  numberOf(place) {
    const key = place.join(" "), found = this.known.get(key);
    if (found !== undefined) return found;
    this.known.set(key, this.list.length);
    return this.list.push(place) - 1;
  }

  /** @param {number} number one that it gave */
  at(number) {
    return /** @type {Pair} */ (this.list[number]);
  }
}

/**
 * The steps of a list from each to the next.
 * @template T
 * @param {T[]} list
 */
const stepsOf = (list) => list.slice(1).map((to, at) => /** @type {[from: T, to: T]} */ ([list[at], to]));

/** @param {Pair} from @param {Pair} to @param {Pair} at */
const turnOf = ([fromX, fromY], [toX, toY], [x, y]) => (toX - fromX) * (y - fromY) - (toY - fromY) * (x - fromX);

// How far along a line a place lies, from 0 at its first end to 1; and how far from it.
/** @param {Pair} from @param {Pair} to @param {Pair} at */
function onLine([fromX, fromY], [toX, toY], [x, y]) {
  const [across, up] = [toX - fromX, toY - fromY], along = ((x - fromX) * across + (y - fromY) * up) / (across * across + up * up);
  const part = Math.max(0, Math.min(1, along));
  return { along: part, away: Math.hypot(x - fromX - part * across, y - fromY - part * up) };
}

/** @typedef {(piece: Piece, place: number) => void} Cut */

// Whether ends of a piece lie on another one, which is cut there.
/** @param {Places} places @param {Piece} piece @param {Piece} ends @param {Cut} cut */
function isTouched(places, piece, ends, cut) {
  const [from, to] = piece, on = ends.filter((end) => !piece.includes(end) && onLine(places.at(from), places.at(to), places.at(end)).away < TOUCH);
  for (const end of on) cut(piece, end);
  return on.length > 0 || ends.some((end) => piece.includes(end));
}

// Where two pieces of lines meet, as a place of the numbers that both are cut at; where an end of one lies on the other, that end.
/** @param {Places} places @param {Piece} one @param {Piece} other @param {Cut} cut */
function meet(places, one, other, cut) {
  const isOne = isTouched(places, one, other, cut), isOther = isTouched(places, other, one, cut);
  if (isOne || isOther) return;
  const [a, b, c, d] = [places.at(one[0]), places.at(one[1]), places.at(other[0]), places.at(other[1])];
  const [first, second, third, fourth] = [turnOf(a, b, c), turnOf(a, b, d), turnOf(c, d, a), turnOf(c, d, b)];
  if (first > 0 === second > 0 || third > 0 === fourth > 0) return;
  const part = third / (third - fourth);
  const place = places.numberOf([Math.round(a[0] + part * (b[0] - a[0])), Math.round(a[1] + part * (b[1] - a[1]))]);
  cut(one, place);
  cut(other, place);
}

// The pieces of lines between places where they meet others, each once, as pairs of numbers.
/** @param {Places} places @param {Piece[]} pieces */
function cutPieces(places, pieces) {
  const cuts = new Map(pieces.map((piece) => [piece, new Set(piece)]));
  const boxed = pieces.map((piece) => {
    const [fromX, fromY] = places.at(piece[0]), [toX, toY] = places.at(piece[1]);
    return { piece, left: Math.min(fromX, toX), right: Math.max(fromX, toX), low: Math.min(fromY, toY), high: Math.max(fromY, toY) };
  }).sort((one, other) => one.left - other.left);
  /** @type {typeof boxed} */
  let near = [];
  for (const one of boxed) {
    near = near.filter(({ right }) => right + TOUCH >= one.left);
    for (const other of near) {
      if (other.high + TOUCH < one.low || other.low - TOUCH > one.high) continue;
      meet(places, one.piece, other.piece, (piece, place) => cuts.get(piece)?.add(place));
    }
    near.push(one);
  }
  return pieces.flatMap((piece) => {
    const [from, to] = piece, along = (/** @type {number} */ place) => onLine(places.at(from), places.at(to), places.at(place)).along;
    return stepsOf([...cuts.get(piece) ?? piece].sort((one, other) => along(one) - along(other)));
  });
}

// The places next to each.
/** @param {number} count @param {Piece[]} pieces */
function neighboursOf(count, pieces) {
  /** @type {Set<number>[]} */
  const next = Array.from({ length: count }, () => new Set());
  for (const [from, to] of pieces) {
    next[from]?.add(to);
    next[to]?.add(from);
  }
  return next;
}

// The way around all that hangs together with its lowest place, counterclockwise: at each place on along the first piece after that
// on which one came, so that nothing lies to the right. It passes no piece twice in the same direction; where pieces lie so on one
// another that it would, there is no way.
/** @param {number} start @param {Set<number>[]} next @param {Places} places @returns {Way} */
function wayAround(start, next, places) {
  /** @param {number} from @param {number} to */
  const angle = (from, to) => {
    const [fromX, fromY] = places.at(from), [toX, toY] = places.at(to);
    return Math.atan2(toY - fromY, toX - fromX);
  };
  /** @type {Way} */
  const way = [places.at(start)];
  const turn = 2 * Math.PI, most = next.reduce((sum, { size }) => sum + size, 1);
  let at = start, back = -Math.PI / 2, first = -1;
  while (way.length <= most) {
    let best = -1, least = Infinity;
    for (const to of next[at] ?? []) {
      const by = (angle(at, to) - back + 2 * turn) % turn || turn;
      if (by < least) [best, least] = [to, by];
    }
    if (best < 0 || at === start && best === first) return way;
    if (first < 0) first = best;
    back = angle(best, at);
    at = best;
    way.push(places.at(at));
  }
  return [places.at(start)];
}

/** @param {Way} way */
function areaOf(way) {
  const [[x, y]] = way;
  return stepsOf(way).reduce((sum, [[fromX, fromY], [toX, toY]]) => sum + (fromX - x) * (toY - y) - (toX - x) * (fromY - y), 0) / 2;
}

/**
 * The groups of closed lines that enclose something; none where the way around one can't be told.
 * @param {Pair[][]} lines
 * @returns {Loop[]}
 */
export function loopsOf(lines) {
  const places = new Places(), numbered = lines.map((line) => ({ line, numbers: line.map((place) => places.numberOf(place)) }));
  const whole = numbered.flatMap(({ numbers }) => stepsOf(numbers).filter(([from, to]) => from !== to));
  const pieces = cutPieces(places, whole), { list } = places, groups = new Union(list.length), next = neighboursOf(list.length, pieces);
  for (const [from, to] of pieces) groups.join(from, to);
  /** @type {Map<number, number>} */
  const lowest = new Map();
  list.forEach(([x, y], place) => {
    const group = groups.find(place), [leastX, leastY] = places.at(lowest.get(group) ?? place);
    if (!lowest.has(group) || y < leastY || y === leastY && x < leastX) lowest.set(group, place);
  });
  const ways = [...lowest].filter(([, start]) => next[start]?.size).map(([group, start]) => ({ group, way: wayAround(start, next, places) }));
  if (ways.some(({ way }) => way.length === 1)) return [];
  return ways.filter(({ way }) => areaOf(way) >= 1).map(({ group, way }) => ({ way,
    lines: numbered.flatMap(({ line, numbers: [first] }) => first !== undefined && groups.find(first) === group ? [line] : []) }));
}
