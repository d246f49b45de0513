// Finds what a person types, in an index: nets, components, pins, apertures, tools, attributes, and the text of a place.
//
//     const found = find(index, "r1", { most: 50 });
//     found.groups[0]                { kind: "component", count: 12, results: [{ text: "R1", lights, .. }, ..] }
//
// What is the text comes before what begins with it, and that before what has it within; letters may be small or not.

import { BOARD, placeText } from "./measures.js";
import { KINDS, folded } from "./search_index.js";
import { lengthOf } from "../board/index.js";

/** @typedef {import("./search_index.js").Entry} Entry */
/** @typedef {import("./search_index.js").Index} Index */
/** @typedef {import("./search_index.js").Kind | "place"} Kind */
/** @typedef {import("./measures.js").Pair} Pair */
/** @typedef {import("./measures.js").Unit} Unit */

/**
 * @typedef {object} Result
 * @property {Kind} kind
 * @property {string} id as the index has it; of a place its text
 * @property {string} text
 * @property {string} detail
 * @property {"exact" | "prefix" | "within"} match
 * @property {import("./search_index.js").Lights[]} lights
 * @property {Pair | null} place where it is that of a place
 */

/**
 * The results of a kind: so many there are, and those that are shown.
 * @typedef {{kind: Kind, count: number, results: Result[]}} Group
 */

/** @typedef {{query: string, count: number, shown: number, groups: Group[]}} Found */

/** @type {Result["match"][]} */
const MATCHES = ["exact", "prefix", "within"];
const NONE = MATCHES.length;
const PLACE = /^([-+]?(?:\d+\.?\d*|\.\d+))\s*([a-zµμ]*)(?:\s*[,;]\s*|\s+)([-+]?(?:\d+\.?\d*|\.\d+))\s*([a-zµμ]*)$/i;

/**
 * The place that a text is: `x y` or `x, y`, each a number of the unit or with a unit of its own; one behind both is that of both.
 * @param {string} text
 * @param {Unit} unit
 * @returns {Pair | null} null where it is none on the board
 */
export function placeIn(text, unit) {
  const [, first, ofFirst = "", second = "", ofSecond = ""] = PLACE.exec(text.trim())?.map((part) => part.toLowerCase()) ?? [];
  if (first === undefined) return null;
  const x = lengthOf(first + (ofFirst || ofSecond), unit), y = lengthOf(second + ofSecond, unit);
  return x !== null && y !== null && Math.abs(x) < BOARD && Math.abs(y) < BOARD ? [x, y] : null;
}

/** @param {Entry} entry @param {string} text @returns {number} the place of its match in MATCHES; NONE where it has none */
function rankOf({ keys }, text) {
  let best = NONE;
  for (const key of keys) {
    const at = key.indexOf(text);
    if (at < 0) continue;
    const rank = at > 0 ? 2 : key.length === text.length ? 0 : 1;
    if (rank === 0) return 0;
    if (rank < best) best = rank;
  }
  return best;
}

/** @typedef {{kind: Kind, best: number, all: Result[]}} Matched */

/** @param {Index} index @param {import("./search_index.js").Kind} kind @param {string} query @returns {Matched} */
function matched(index, kind, query) {
  // A pin may be written as R1-1, R1.1 or R1 1.
  const texts = kind === "pin" ? [...new Set([query, query.replace(/[ .]/g, "-")])] : [query];
  /** @type {Result[][]} */
  const ranks = MATCHES.map(() => []);
  for (const entry of index.ordered.get(kind) ?? []) {
    const rank = Math.min(...texts.map((text) => rankOf(entry, text))), match = MATCHES[rank], { id, detail, lights } = entry;
    if (match) ranks[rank]?.push({ kind, id, text: entry.text, detail, match, lights, place: null });
  }
  return { kind, best: ranks.findIndex(({ length }) => length > 0), all: ranks.flat() };
}

// How many of each group are shown: each has room for some, and what one leaves goes to the others, the first of them first.
/** @param {Matched[]} groups @param {number} most */
function sharesOf(groups, most) {
  const fair = Math.floor(most / Math.max(1, groups.length));
  const shares = groups.map(({ all: { length } }) => ({ length, share: Math.min(length, fair) }));
  let left = most - shares.reduce((sum, { share }) => sum + share, 0);
  return shares.map(({ length, share }) => {
    const more = Math.min(left, length - share);
    left -= more;
    return share + more;
  });
}

/**
 * What a text finds: groups by kind, that with the best match first, and in each the best ones first.
 * @param {Index} index
 * @param {string} query
 * @param {{most?: number}} options at most so many results are given, and `count` is that of all
 * @returns {Found}
 */
export function find(index, query, { most = 50 } = {}) {
  const text = folded(query), place = placeIn(query, index.unit);
  if (!text) return { query, count: 0, shown: 0, groups: [] };
  const groups = KINDS.map((kind) => matched(index, kind, text)).filter(({ all }) => all.length);
  groups.sort((one, other) => one.best - other.best || KINDS.indexOf(/** @type {import("./search_index.js").Kind} */ (one.kind))
    - KINDS.indexOf(/** @type {import("./search_index.js").Kind} */ (other.kind)));
  if (place) groups.unshift({ kind: "place", best: 0, all: [placeResult(place, index.unit)] });
  const shares = sharesOf(groups, most);
  return {
    query, count: groups.reduce((sum, { all }) => sum + all.length, 0), shown: shares.reduce((sum, share) => sum + share, 0),
    groups: groups.map(({ kind, all }, at) => ({ kind, count: all.length, results: all.slice(0, shares[at]) })),
  };
}

/** @param {Pair} place @param {Unit} unit @returns {Result} */
function placeResult(place, unit) {
  const text = `${placeText(place, unit)} ${unit}`;
  return { kind: "place", id: text, text, detail: "", match: "exact", lights: [], place };
}
