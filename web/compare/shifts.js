// Items that are the same but for where they lie: by shifts that several of them share, as all pads of a part that was moved,
// and by what lies near.

import { grouped } from "./loose.js";

/** @typedef {import("./loose.js").LooseItem} LooseItem */
/** @typedef {import("./loose.js").Joined} Joined */

/** So far an item is taken as moved, in nm, where no other one moved in the same way; the nearest come first. */
const NEAR = [1000, 50_000, 2_000_000];
/** So many shifts that several share are tried, and so many items of a cell are looked at. */
const MOST_SHIFTS = 8, MOST_LOOKED = 64;
/** Items of so few are all taken for votes. */
const FEW = 4;

/** @type {(one: LooseItem, other: LooseItem) => number} */
const onBoard = (one, other) => one.x - other.x || one.y - other.y;

// The shifts that several items may share, the most frequent first.
/** @param {Map<string, LooseItem[]>} went @param {Map<string, LooseItem[]>} came */
function votedShifts(went, came) {
  /** @type {Map<string, {dx: number, dy: number, votes: number}>} */
  const found = new Map();
  const vote = (/** @type {LooseItem} */ from, /** @type {LooseItem} */ to, /** @type {number} */ votes) => {
    const dx = to.x - from.x, dy = to.y - from.y, key = `${dx} ${dy}`, known = found.get(key);
    if (known) known.votes += votes;
    else found.set(key, { dx, dy, votes });
  };
  for (const [form, group] of went) {
    const others = came.get(form), least = Math.min(group.length, others?.length ?? 0);
    if (!others) continue;
    if (group.length <= FEW && others.length <= FEW) {
      for (const from of group) for (const to of others) vote(from, to, 1);
      continue;
    }
    const one = [...group].sort(onBoard), other = [...others].sort(onBoard);
    for (const part of [0, 0.5, 1]) {
      const from = one[Math.round(part * (one.length - 1))], to = other[Math.round(part * (other.length - 1))];
      if (from && to) vote(from, to, least / 2);
    }
  }
  return [...found.values()].filter(({ votes }) => votes > 1)
    .sort((one, other) => other.votes - one.votes || Math.hypot(one.dx, one.dy) - Math.hypot(other.dx, other.dy)).slice(0, MOST_SHIFTS);
}

/**
 * The pairs of items that several share a shift of.
 * @param {import("./loose.js").Loose} loose
 * @returns {Joined[]}
 */
export function shiftedPairs({ went, came }) {
  if (!went.length || !came.length) return [];
  const waiting = grouped(came, ({ x, y, form }) => `${x} ${y} ${form}`), byForm = (/** @type {LooseItem} */ { form }) => form;
  /** @type {Joined[]} */
  const found = [];
  let left = went;
  for (const { dx, dy } of votedShifts(grouped(went, byForm), grouped(came, byForm))) {
    /** @type {Joined[]} */
    const pairs = [];
    /** @type {LooseItem[]} */
    const rest = [];
    for (const from of left) {
      const others = waiting.get(`${from.x + dx} ${from.y + dy} ${from.form}`), to = others?.at(-1);
      if (to) pairs.push({ from, to, parts: [] });
      else rest.push(from);
      others?.pop();
    }
    // One alone may be chance.
    if (pairs.length > 1) for (const pair of pairs) found.push(pair);
    else for (const { from, to } of pairs) waiting.get(`${to.x} ${to.y} ${from.form}`)?.push(to);
    if (pairs.length > 1) left = rest;
    if (!left.length) break;
  }
  return found;
}

// A number for a form's cell of the board; several cells may have one.
/** @param {number} form @param {number} across @param {number} up */
const cellNumber = (form, across, up) => (Math.imul(form, 73856093) ^ Math.imul(across, 19349663) ^ Math.imul(up, 83492791)) >>> 0;
const AROUND = [-1, 0, 1].flatMap((across) => [-1, 0, 1].map((up) => ({ across, up })));

/**
 * The pairs of items of one form within a distance.
 * @param {LooseItem[]} went
 * @param {LooseItem[]} came
 * @param {number} radius
 * @param {Map<string, number>} forms their numbers
 * @returns {Joined[]}
 */
function pairsWithin(went, came, radius, forms) {
  const cellOf = (/** @type {LooseItem} */ { form, x, y }, across = 0, up = 0) =>
    cellNumber(forms.get(form) ?? -1, Math.floor(x / radius) + across, Math.floor(y / radius) + up);
  const cells = grouped(came, (one) => cellOf(one)), taken = new Set(/** @type {LooseItem[]} */ ([]));
  /** @type {Joined[]} */
  const found = [];
  for (const from of went) {
    /** @type {LooseItem | null} */
    let to = null;
    let least = radius;
    for (const { across, up } of AROUND) {
      const others = cells.get(cellOf(from, across, up)) ?? [];
      for (let at = 0; at < others.length && at < MOST_LOOKED; at++) {
        const other = /** @type {LooseItem} */ (others[at]), distance = Math.hypot(other.x - from.x, other.y - from.y);
        if (distance > least || other.form !== from.form || taken.has(other)) continue;
        to = other;
        least = distance;
      }
    }
    if (!to) continue;
    taken.add(to);
    found.push({ from, to, parts: [] });
  }
  return found;
}

/**
 * The pairs of items that lie near.
 * @param {import("./loose.js").Loose} loose
 */
export function takeNear(loose) {
  /** @type {Map<string, number>} */
  const forms = new Map();
  for (const { form } of loose.came) if (!forms.has(form)) forms.set(form, forms.size);
  for (const radius of NEAR) {
    if (loose.went.length && loose.came.length) loose.take(pairsWithin(loose.went.filter(({ form }) => forms.has(form)), loose.came, radius, forms));
  }
}
