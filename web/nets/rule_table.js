// The rules by their names, what each is, and the limits that a file or a call gives them. It is apart from what checks them, since
// who only names a rule needs none of that.

import { lengthOf } from "../board/index.js";
import { mm } from "./words.js";

/**
 * A rule: what it is, and what its value is. It is broken by what is less than its limit, or more where it `isMost`. Its limit is a
 * length `from` and `to` these, in nm, if it has them.
 * @typedef {{title: string, definition: string, isMost?: boolean, from?: number, to?: number}} Rule
 */

/** Overlaps count to a depth of 1 mm, in nm, and limits of them lie between these. */
const SIGNED = { from: -999_999, to: 1_000_000_000 };

/**
 * The rules by their names.
 * @type {Map<string, Rule>}
 */
export const RULES = new Map(/** @type {[string, Rule][]} */ ([
  ["ring", { title: "annular ring", definition: "the least copper around a plated hole, on each layer where the hole touches copper: the distance "
    + "from its rim to the nearest white that is not inside of it; 0 where the hole breaks out" }],
  ["gap", { title: "copper to copper", definition: "the distance of the copper of two nets on one layer" }],
  ["hole-copper", { title: "hole to copper", definition: "the distance from the rim of a hole to copper of another net than its own, on each layer; "
    + "of a hole without plating to any copper" }],
  ["outline", { title: "copper to outline", definition: "the distance of copper from the middle of a closed line of the outline" }],
  ["hole-hole", { title: "hole to hole", definition: "the distance of the rims of two holes, also of different drill files; less than 0 where they "
    + "overlap, and two hits of one place are told as doubled" }],
  ["width", { title: "thin copper", definition: "the width of copper that no disc of this width inside the copper covers, but corners" }],
  ["mask-web", { title: "mask web", definition: "the width of solder mask between two openings, and of mask that no disc of this width covers within "
    + "one, but corners" }],
  ["mask-bare", { title: "bare copper of another net", ...SIGNED, definition: "the distance of an opening of the mask from copper of a net that has "
    + "no pad in it; less than 0 where it is bare, by how deep it lies in the opening" }],
  ["silk-bare", { title: "ink on bare copper", ...SIGNED, definition: "the distance of ink from copper that the mask leaves bare; less than 0 where "
    + "it lies on it, by how deep" }],
  ["paste", { title: "paste and mask", ...SIGNED, definition: "the distance of paste from the mask around its opening; less than 0 where paste lies "
    + "on mask, by how far it is from the nearest opening" }],
  ["hole-pad", { title: "hole without a pad", isMost: true, from: 0, to: 999_999, definition: "the distance from the rim of a plated hole to the nearest "
    + "copper, on the first and on the last layer that it passes; copper at the rim is its pad" }],
  ["pad-hole", { title: "pad without a hole", isMost: true, from: 0, to: 999_999, definition: "the distance of a pad that has a plated hole, by its "
    + "netlist or its attributes, from the middle of the nearest plated hole through all of its layers" }],
  ["doubled", { title: "doubled hits", definition: "the distance of two hits or slots of one form in the same material: the most that a place of one's "
    + "line is from that of the other" }],
  ["overlap", { title: "holes that overlap", isMost: true, from: 0, to: 1_000_000_000, definition: "how far the rims of two holes in the same material "
    + "overlap; those that are reported as doubled are left out" }],
]));

/** The longest length that a rule may ask for, in nm. */
const LONGEST = 1_000_000_000;

/**
 * Reads the limits of a file of rules: a line has a name and a length in mm; # begins a comment.
 * @param {string} text
 * @returns {{limits: Map<string, number>, refusals: {line: number, what: string}[]}}
 */
export function readRules(text) {
  const limits = new Map();
  /** @type {{line: number, what: string}[]} */
  const refusals = [];
  text.split(/\r\n|\r|\n/).forEach((line, at) => {
    const [code = ""] = line.split("#"), words = code.trim();
    if (words === "") return;
    const fault = takeRule(limits, words);
    if (fault !== null) refusals.push({ line: at + 1, what: fault });
  });
  return { limits, refusals };
}

/**
 * Takes a rule in words, as `ring 0.13`, which is in mm, or `ring 5mil`.
 * @param {Map<string, number>} limits
 * @param {string} words
 * @returns {string | null} why it is refused
 */
export function takeRule(limits, words) {
  const [name = "", text = "", ...more] = words.split(/[ \t=]+/), length = lengthOf(text, "mm");
  const rule = RULES.get(name);
  if (!rule) return `${name.slice(0, 40)} is none of ${[...RULES.keys()].join(", ")}`;
  const { from = 1, to = LONGEST } = rule, within = rule.to ? `, from ${mm(from)} to ${mm(to)} mm` : "";
  if (more.length || length === null || length < from || length > to) {
    return `${name} needs a length in mm or with its unit, as ${name} 0.15 or ${name} 6mil${within}`;
  }
  limits.set(name, length);
  return null;
}
