// What came of comparing the layers of two boards, in words for people: for a terminal, a page and a report.

import { readAttributes } from "../attributes/index.js";
import { DRILL } from "../board/index.js";
import { counted } from "../nets/index.js";
import { DIFFERS, SAME, SAME_PICTURE } from "./layers.js";
import { attributeWords, saidWords } from "./words.js";

/** @typedef {import("../board/index.js").Layer} Layer */

/** What is said of a pair of which one could not be read. */
export const NOT_READ = "refused";

/**
 * A pair of layers, and what came of comparing them.
 * @typedef {object} PairFound
 * @property {Layer[]} layers of both boards
 * @property {Uint8Array[]} bytes of their files
 * @property {boolean} isSameFile
 * @property {string[]} refused why one of them cannot be read
 * @property {import("./layers.js").Compared | null} compared null where the files are the same, or one is refused
 * @property {import("../board/index.js").PlotWindow | null} window in which both were plotted
 */

/** @param {PairFound} pair @returns {import("./layers.js").Outcome | "refused"} */
export const outcomeOf = ({ refused, compared }) => (refused.length ? NOT_READ : compared?.outcome ?? SAME);

/** @param {PairFound} pair @returns {[first: Layer, second: Layer]} */
function bothOf({ layers: [first, second] }) {
  if (!first || !second) throw new RangeError("a pair has two layers");
  return [first, second];
}

/**
 * Whether both show another thing.
 * @param {PairFound} pair
 */
export function isAnother(pair) {
  const [first, second] = bothOf(pair);
  return first.layerFunction.name !== second.layerFunction.name;
}

/**
 * Whether both make the same.
 * @param {PairFound} pair
 */
export const isSamePair = (pair) => outcomeOf(pair) === SAME && !isAnother(pair);

/**
 * What a pair shows.
 * @param {PairFound} pair
 */
export function labelOfPair(pair) {
  const [first, second] = bothOf(pair);
  return isAnother(pair) ? `${first.layerFunction.label}, now ${second.layerFunction.label}` : first.layerFunction.label;
}

/** What each item of a changed layer is of: net, component and pin, where the files have them. */
export class Owners {
  /** @param {PairFound} pair */
  constructor(pair) {
    const { bytes, compared } = pair, [{ kind }] = bothOf(pair);
    const isGerber = compared !== null && compared.changes.length > 0 && kind !== DRILL && compared.said.isRead;
    this.readings = isGerber ? bytes.map((file) => readAttributes(file).items) : [];
  }

  /** @param {import("./changes.js").Change} change */
  words({ from, to }) {
    const [first, second] = this.readings, said = from === null ? second?.[to ?? -1] : first?.[from];
    return attributeWords(said?.attributes ?? []);
  }
}

/**
 * What came of a pair, in a line.
 * @param {PairFound} pair
 */
export function outcomeWords(pair) {
  const { compared, window, isSameFile, refused } = pair;
  if (refused.length) return refused.join("; ");
  if (isSameFile || !compared) return "the same file";
  const places = counted(compared.places.length, "place");
  if (compared.outcome === SAME_PICTURE) return `the same picture at pixels of ${window?.pitch} nm; items differ at ${places}`;
  if (compared.outcome === DIFFERS) return `differs at ${places}${window ? `, by pixels of ${window.pitch} nm` : ""}`;
  return compared.isSameOrder ? "the same" : "the same, with its items in another order, which changes nothing";
}

/**
 * What of a pair is no copper, hole or ink: the names of files, and what they say.
 * @param {PairFound} pair
 * @returns {string[]}
 */
export function besides(pair) {
  const [first, second] = bothOf(pair), { compared } = pair;
  const names = first.file.name === second.file.name ? [] : [`the file is called ${second.file.name} now`];
  if (!compared) return names;
  const { dates, attributes, comments, isRead } = compared.said;
  return [...names, ...dates.map((said) => `date: ${saidWords(said)}`), ...attributes.map((said) => `attribute: ${saidWords(said)}`),
    ...comments.map((said) => `comment: ${saidWords(said)}`), ...isRead ? [] : ["attributes of items are not compared: they cannot be read"]];
}

/**
 * All pairs in a line.
 * @param {readonly string[]} outcomes of the pairs
 * @param {{onlyFirst: unknown[], onlySecond: unknown[]}} rest
 */
export function summaryWords(outcomes, { onlyFirst, onlySecond }) {
  const count = (/** @type {string} */ wanted) => outcomes.filter((outcome) => outcome === wanted).length, refused = count(NOT_READ);
  const parts = [`${count(SAME)} the same`, `${count(SAME_PICTURE)} the same picture`, `${count(DIFFERS)} different`,
    ...refused ? [`${refused} not compared`] : [], ...onlyFirst.length ? [`${onlyFirst.length} only in A`] : [],
    ...onlySecond.length ? [`${onlySecond.length} only in B`] : []];
  return `${counted(outcomes.length, "pair")} of layers: ${parts.join(", ")}`;
}
