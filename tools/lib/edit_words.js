// Which word of a refused line of a script is wrong, by the form of the line (docs/formats.md, "Scripts").

import { wordsOf } from "../../web/board/index.js";
import { nearest } from "./nearest.js";

// The lines, and what stands for an item or for a segment, each with the places of its words.
const LINES = formsOf(["load NAME KIND PATH", "window X0 Y0 PITCH W H", "redraw N", "plot NAME PATH", "write NAME PATH",
  "insert NAME K ITEM", "delete NAME K", "move NAME K DX DY", "reorder NAME K M", "aperture NAME K N", "polarity NAME K POL",
  "tool NAME K T", "diameter NAME T D", "setattr NAME KEY [FIELDS]", "dropattr NAME KEY", "begin", "end", "abort", "undo",
  "redo", "list [NAME]"]);
const ITEMS = formsOf(["flash N X Y TURN POL", "draw N X Y X Y TURN POL", "arc N X Y X Y CX CY DIR POL", "region POL X Y SEGMENTS",
  "hit T X Y", "rout T X Y POINTS"]);
const SEGMENTS = formsOf(["l X Y", "cw X Y CX CY", "ccw X Y CX CY"]);

const WHOLE = /^[-+]?\d{1,12}$/, COUNT = /^\d{1,12}$/, ASCII = /^[!-~]{1,255}$/;
const MOST_NM = 4_000_000_000, MOST_COUNT = 4_294_967_295;
/** @param {string} word */
const isLength = (word) => WHOLE.test(word) && Math.abs(Number(word)) <= MOST_NM;
/** @param {string} word */
const isCount = (word) => COUNT.test(word) && Number(word) <= MOST_COUNT;
/** @param {string} words @returns {(word: string) => boolean} */
const oneOf = (words) => (word) => words.split(" ").includes(word);

/**
 * What a word of each place is.
 * @type {[places: string, test: (word: string) => boolean][]}
 */
const PLACES = [
  ["NAME", (word) => /^[\w.-]{1,32}$/.test(word)],
  ["PATH", (word) => ASCII.test(word)],
  ["KIND", oneOf("gerber drill")],
  ["X0 Y0 PITCH X Y CX CY DX DY D", isLength],
  ["N K M T W H", isCount],
  ["POL", oneOf("dark clear")],
  ["TURN", oneOf("r0 r90 r180 r270 m0 m90 m180 m270")],
  ["DIR", oneOf("cw ccw")],
  ["KEY", (word) => ASCII.test(word) && !/[,%*]/.test(word)],
  ["FIELDS", (word) => /^[!-$&-)+-~]{1,4096}$/.test(word)],
];
/** @type {Map<string, (word: string) => boolean>} */
const TESTS = new Map();
for (const [places, test] of PLACES) for (const place of places.split(" ")) TESTS.set(place, test);

/** The places that a refusal is about, by its number. */
const ABOUT = new Map([[60, ["NAME"]], [61, ["K", "M"]], [62, ["N"]], [63, ["N"]], [64, ["K"]], [66, ["T"]], [67, ["D"]], [74, ["KEY"]],
  [75, ["KEY"]], [82, ["PATH"]], [83, ["NAME"]]]);

/** @param {string[]} lines @returns {Map<string, string[]>} */
function formsOf(lines) {
  return new Map(lines.map((line) => {
    const [command = "", ...places] = line.split(" ");
    return [command, places];
  }));
}

/** @typedef {{word: string, place: string, fits: boolean, near?: string | null}} Placed */

/** @param {string} word @param {string} place @param {string | null} near @returns {Placed} */
const misfit = (word, place, near = null) => ({ word, place, fits: false, near });

// Each word of segments, a form after another.
/** @param {string[]} words */
function placedSegments(words) {
  /** @type {Placed[]} */
  const placed = [];
  let left = 0;
  for (const [at, word] of words.entries()) {
    if (at < left) continue;
    const form = SEGMENTS.get(word);
    if (!form) return [...placed, misfit(word, "l, cw or ccw")];
    placed.push({ word, place: "segment", fits: true }, ...placedIn(form, words.slice(at + 1, at + 1 + form.length)));
    left = at + 1 + form.length;
  }
  return placed.length ? placed : [misfit("", "l, cw or ccw")];
}

/** @param {string[]} words @returns {Placed[]} */
function placedItem(words) {
  const [kind = "", ...rest] = words, form = ITEMS.get(kind);
  if (!form) return [misfit(kind, "flash, draw, arc, region, hit or rout", nearest(kind, [...ITEMS.keys()]))];
  return [{ word: kind, place: "item", fits: true }, ...placedIn(form, rest)];
}

/**
 * The words after the first of a form, each with its place; "" where one is missing.
 * @param {string[]} form
 * @param {string[]} words
 * @returns {Placed[]}
 */
function placedIn(form, words) {
  /** @type {Placed[]} */
  const placed = [];
  for (const [at, place] of form.entries()) {
    const word = words[at] ?? "", isOptional = place.startsWith("[");
    if (place === "ITEM") return [...placed, ...placedItem(words.slice(at))];
    if (place === "SEGMENTS") return [...placed, ...placedSegments(words.slice(at))];
    if (place === "POINTS") {
      return [...placed, ...words.slice(at).map((point) => ({ word: point, place: "X Y", fits: isLength(point) }))];
    }
    if (isOptional && !word) return placed;
    const name = place.replace(/[[\]]/g, ""), test = TESTS.get(name);
    placed.push({ word, place: name, fits: test !== undefined && test(word) });
  }
  return [...placed, ...words.slice(form.length).map((word) => misfit(word, "one word too many"))];
}

/**
 * The words of a line with their places.
 * @param {string} line
 * @returns {Placed[]}
 */
function placedWords(line) {
  const [command = "", ...words] = wordsOf(line), form = LINES.get(command);
  if (!form) return [misfit(command, "no command", nearest(command, [...LINES.keys()]))];
  return [{ word: command, place: "command", fits: true }, ...placedIn(form, words)];
}

/** @param {Placed} placed */
function told({ word, place, near }) {
  if (!word) return `${place} is missing`;
  return `at '${word}' (${place}${near ? `; did you mean ${near}?` : ""})`;
}

/**
 * The word of a refused line that is wrong, in words; null where it is none alone.
 * @param {import("../../web/board/index.js").Reply} reply
 * @returns {string | null}
 */
export function wrongWord(reply) {
  const placed = placedWords(reply.line);
  if (reply.refusal === 80) {
    const found = placed.find(({ fits }) => !fits);
    return found ? told(found) : null;
  }
  const about = placed.filter(({ place }) => ABOUT.get(reply.refusal)?.includes(place));
  return about.length ? `at ${about.map(({ word, place }) => `'${word}' (${place})`).join(" or ")}` : null;
}
