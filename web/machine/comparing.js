// What is said of two: only what was compared.

import { pairs } from "./pairs.js";
import { plural } from "../board/index.js";

// In both, in the first alone, in the second alone: colours that are told apart by those who do not see red or green.
export const COLOURS = ["#7c8796", "#ff9a3c", "#35c8f0"];

const WORDS_BEFORE = ["in both", "before alone", "now alone"];
const WORDS_TWO = ["in both", "in the first alone", "in the second alone"];
const LABELS = ["both", "the first alone", "the second alone"];
// The pictures of a comparison of two.
export const FOUND = ["compared both", "compared first", "compared second"];

/** @param {string} window */
const pitchOf = (window) => Number(window.split(" ")[3]);

/** @param {number[]} counts @param {string[]} words */
const countsOf = (counts, words) =>
  pairs(COLOURS, pairs(counts, words)).map(([colour, [count, what]]) => ({ colour, words: `${plural(count, "pixel")} ${what}` }));

/** @param {Machine.Layer[]} layers @param {string[]} names */
const joinedNames = (layers, names) => names.map((name) => layers.find((layer) => layer.name === name)?.label ?? name).join(", ");

/** @param {number} pitch */
const pixelWords = (pitch) => `pixels, ${pitch.toLocaleString("en")} nm each, of the layers and the part that are in view:`;

// Where the sheets of a window lie.
/** @param {string} window @param {number} samples */
function placeOf(window, samples) {
  const [, left = NaN, low = NaN, pitch = NaN, , height = NaN] = window.split(" ").map(Number);
  return { left, top: low + height * pitch, pitch: pitch * samples };
}

// What is seen of a comparison with steps before.
/** @param {Machine.Sighted} found */
const beforeInView = ({ sheets, window, samples }) => ({ counts: countsOf(sheets.map(({ count }) => count), WORDS_BEFORE),
  pixels: pixelWords(pitchOf(window)), window, sheets, place: placeOf(window, samples) });

// All layers beside what they were some steps before: their texts whole, and the pixels of the view.
/** @param {Machine.State} state @param {number} back @param {Machine.Different} found @returns {Machine.Comparison} */
export function withBefore({ layers }, back, { box, differing, count, ...seen }) {
  const said = differing.length ? `differs in: ${joinedNames(layers, differing.map(({ name }) => name))}`
    : `${plural(count, "layer")}: the same, byte for byte, in ${count === 1 ? "its text" : "their texts"}`;
  return {
    kind: "before", back, title: `Compared with ${plural(back, "step")} before`, said, differing, box,
    ..."window" in seen ? beforeInView(seen) : { counts: [], pixels: "", window: null, sheets: null, place: null },
  };
}

// A comparison in another view: its pixels are compared anew, at the pitch that the view has. What was said of texts stays.
/** @param {Machine.Comparison} comparison @param {Machine.Sighted} found @returns {Machine.Comparison} */
export function inView(comparison, found) {
  if (comparison.kind === "before") return { ...comparison, ...beforeInView(found) };
  const { sheets, window, samples } = found, rows = countsOf(sheets.map(({ count }) => count), WORDS_TWO);
  const words = rows.map((row) => row.words).join(", ");
  return { ...comparison, sheets, place: placeOf(window, samples), window, view: `in view, at ${pitchOf(window).toLocaleString("en")} nm a pixel: ${words}` };
}

// Two layers or pictures. Layers are compared by their texts; pictures, and what is shown, by pixels of a stated pitch.
/** @param {[Machine.Compared, Machine.Compared]} pair @param {Machine.Counted} found @returns {Machine.Comparison} */
export function ofTwo(pair, { counts, box, window, isSameText, isWhole }) {
  const at = `at ${pitchOf(window).toLocaleString("en")} nm a pixel`, isSame = counts[1] === 0 && counts[2] === 0;
  const textWords = isSameText ? "the same, byte for byte, in their texts" : "their texts differ";
  const byText = isSameText === null ? "" : textWords;
  const byPixels = isSame ? `the same, bit for bit, ${at}` : "";
  return {
    kind: "two", pair, whole: window, window: null, title: `${pair[0].label} and ${pair[1].label}`, differing: [], box,
    said: [byText, byPixels].filter((part) => part).join("; "), counts: countsOf(counts, WORDS_TWO),
    pixels: `pixels: ${at}${isWhole ? "" : "; what lies outside of the picture was not compared"}`,
    layers: pairs(FOUND, pairs(LABELS, COLOURS)).map(([name, [label, colour]]) =>
      ({ name, label, colour, opacity: 1, isShown: true, isOpened: true })),
  };
}
