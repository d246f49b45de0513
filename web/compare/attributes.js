// What two files say that paints nothing: attributes of the file, of items and of apertures or tools, and comments. Dates
// are told apart from the rest, since each run of a CAD program writes new ones.

import { latin1 } from "../bytes/index.js";
import { NotJoined, plainText, readAttributes } from "../attributes/index.js";

/**
 * What differs of one attribute, or of comments.
 * @typedef {object} Said
 * @property {string} name as `.CreationDate`; `comment` of comments
 * @property {"file" | "items" | "comment"} of
 * @property {string | null} first what the first file says; null where it says nothing; of many items of the first of them
 * @property {string | null} second
 * @property {number} count how many items, or comments, say another thing
 * @property {number | null} place of the first such item in the first layer
 *
 * @typedef {{dates: Said[], attributes: Said[], comments: Said[], isRead: boolean}} SaidDifferences
 */

const DATES = [".CreationDate"];
// Dates as programs write them into comments: 2024-09-02T20:14:31+02:00, 02.09.2024, 9/2/2024 8:14 PM, Mon Sep  2 20:14:31 2024.
const DATE = new RegExp([
  "\\d{4}[-./]\\d{1,2}[-./]\\d{1,2}T?", "\\d{1,2}[-./]\\d{1,2}[-./]\\d{4}", "\\d{1,2}:\\d\\d(?::\\d\\d)?(?:\\.\\d+)?(?: ?[AP]M)?(?:Z|[+-]\\d\\d:?\\d\\d)?",
  "\\b(?:Mon|Tue|Wed|Thu|Fri|Sat|Sun)[a-z]*\\b", "\\b(?:Jan|Feb|Mar|Apr|May|Jun|Jul|Aug|Sep|Oct|Nov|Dec)[a-z]*\\.? +\\d{1,2}\\b",
  "\\b(?:19|20)\\d\\d\\b",
].join("|"), "g");
const GERBER = /G0?4([^*%]*)\*|%TF([^*]*)\*%|%T[AOD][^*]*\*%/g;
// What sets an attribute of items or of apertures, as a command or in a comment.
const SETS = /%\s*T\s*[AO]|#@!\s*T[AO]/;
const DRILL = /^[^;\r\n]*;([^\r\n]*)/gm;
const STANDARD = /^\s*#@!\s*T([AFOD])([^]*)$/;
const TOOL = /^[ \t]*T0*(\d+)[^\r\n;]*C[\d.]/;

/** @param {string} text @returns {[string, string]} a name and its fields */
function named(text) {
  const line = text.replace(/[\r\n]/g, "").trim(), at = line.indexOf(",");
  return at < 0 ? [line, ""] : [line.slice(0, at).trim(), line.slice(at + 1).trim()];
}

/**
 * What a file says of itself, and its comments.
 * @param {"gerber" | "drill"} kind
 * @param {string} text
 */
function ofFile(kind, text) {
  /** @type {Map<string, string>} */
  const attributes = new Map();
  /** @type {string[]} */
  const comments = [];
  for (const [, comment, own] of text.matchAll(kind === "drill" ? DRILL : GERBER)) {
    const [, command, said = ""] = STANDARD.exec(comment ?? "") ?? [];
    if (own !== undefined) attributes.set(...named(own));
    else if (command === "F") attributes.set(...named(said));
    else if (comment !== undefined && !command) comments.push(comment.trim());
  }
  return { attributes, comments };
}

/** @param {string} text @returns {Map<number, string>} the attributes of the tools, by their numbers */
function ofTools(text) {
  /** @type {Map<string, string>} */
  const held = new Map();
  /** @type {Map<number, string>} */
  const tools = new Map();
  for (const line of text.split(/\r\n|\r|\n/)) {
    const [, comment = ""] = /^[^;]*;(.*)$/.exec(line) ?? [], [, command, said = ""] = STANDARD.exec(comment) ?? [], tool = TOOL.exec(line);
    if (command === "A") held.set(...named(said));
    if (command === "D") held.clear();
    if (tool) tools.set(Number(tool[1]), [...held].map(([name, fields]) => `${name},${fields}`).sort().join("\n"));
    if (/^[ \t]*(%|M30)/.test(line)) break;
  }
  return tools;
}

/** @param {readonly import("../attributes/index.js").Attribute[]} attributes */
const linesOf = (attributes) => attributes.map(({ name, fields }) => `${name},${fields.join(",")}`).join("\n");

/** @param {import("../attributes/index.js").Said} said @returns {string} */
const saidOf = ({ attributes, objects }) => [linesOf(attributes), ...objects.map(saidOf)].join("\n");

/**
 * What a file says of each item and of its aperture or tool, a line for each attribute.
 * @param {import("./canonical.js").CanonicalLayer} layer
 * @param {Uint8Array} bytes of the file
 * @returns {string[]}
 * @throws {NotJoined}
 */
function ofItems({ kind, items, entries }, bytes) {
  if (!SETS.test(latin1(bytes))) return items.map(() => "");
  if (kind === "drill") {
    const tools = ofTools(latin1(bytes));
    return entries.map((entry) => tools.get(entry) ?? "");
  }
  const reading = readAttributes(bytes);
  if (reading.count !== items.length) throw new NotJoined("the file", "another number of items");
  /** @type {Map<string, string>} */
  const known = new Map();
  const apertures = new Map([...reading.apertures].map(([number, attributes]) => [number, linesOf(attributes)]));
  return reading.items.map((said, at) => {
    const line = [saidOf(said), apertures.get(entries[at] ?? -1) ?? ""].filter((part) => part).join("\n");
    const same = known.get(line);
    if (same === undefined) known.set(line, line);
    return same ?? line;
  });
}

/** @param {string} lines @returns {Map<string, string>} */
const fieldsOf = (lines) => new Map(lines.split("\n").filter((line) => line).map(named));

/** The differences by attributes. */
class Differences {
  constructor() {
    /** @type {Map<string, Said>} */
    this.found = new Map();
  }

  /** @param {"file" | "items"} of @param {Map<string, string>} one @param {Map<string, string>} other @param {number | null} place */
  add(of, one, other, place) {
    for (const name of new Set([...one.keys(), ...other.keys()])) {
      const first = one.get(name), second = other.get(name);
      if (first === second) continue;
      const known = this.found.get(`${of} ${name}`);
      if (known) known.count++;
      else this.found.set(`${of} ${name}`, { name, of, first: told(first), second: told(second), count: 1, place });
    }
  }

  get list() {
    return [...this.found.values()];
  }
}

/** @param {string | undefined} fields */
const told = (fields) => (fields === undefined ? null : plainText(fields));

// What is said of each pair of items; of equal items, as a set, since any of them may stand for another.
/**
 * @param {Differences} differences
 * @param {readonly string[]} items
 * @param {Int32Array} places
 * @param {string[]} one
 * @param {string[]} other
 */
function compareItems(differences, items, places, one, other) {
  /** @type {Map<string, {at: number, line: string, second: string}[]>} */
  const unlike = new Map();
  items.forEach((item, at) => {
    const place = places[at] ?? -1, line = one[at] ?? "", second = other[place] ?? "";
    if (place < 0 || line === second) return;
    const equal = unlike.get(item);
    if (equal) equal.push({ at, line, second });
    else unlike.set(item, [{ at, line, second }]);
  });
  for (const equal of unlike.values()) {
    const seconds = equal.map(({ second }) => second).sort();
    equal.sort((a, b) => (a.line < b.line ? -1 : a.line > b.line ? 1 : 0));
    equal.forEach(({ at, line }, place) => {
      const second = seconds[place] ?? "";
      if (line !== second) differences.add("items", fieldsOf(line), fieldsOf(second), at);
    });
  }
}

/** @param {string[]} first @param {string[]} second */
function alone(first, second) {
  /** @type {Map<string, number>} */
  const counts = new Map();
  for (const text of second) counts.set(text, (counts.get(text) ?? 0) + 1);
  return first.filter((text) => {
    const count = counts.get(text) ?? 0;
    if (count) counts.set(text, count - 1);
    return !count;
  });
}

/** @param {string} text */
const undated = (text) => text.replace(DATE, "");

/** @param {string[]} first @param {string[]} second @returns {Pick<SaidDifferences, "dates" | "comments">} */
function comparedComments(first, second) {
  const one = alone(first, second), other = alone(second, first);
  const isDated = one.length === other.length && one.every((text, at) => undated(text) === undated(other[at] ?? ""));
  if (!one.length && !other.length) return { dates: [], comments: [] };
  /** @type {Said} */
  const said = { name: "comment", of: "comment", first: told(one[0]), second: told(other[0]), count: Math.max(one.length, other.length), place: null };
  return isDated ? { dates: [said], comments: [] } : { dates: [], comments: [said] };
}

/**
 * @typedef {{layer: import("./canonical.js").CanonicalLayer, bytes: Uint8Array}} Side a layer and the file it was loaded from
 */

/**
 * What two files say differently that paints nothing.
 * @param {Side} first
 * @param {Side} second
 * @param {Int32Array} places for each item of the first its place in the second, or -1
 * @returns {SaidDifferences}
 */
export function comparedSaid(first, second, places) {
  const differences = new Differences();
  const ofSide = (/** @type {Side} */ { layer, bytes }) => ofFile(layer.kind, latin1(bytes)), one = ofSide(first), other = ofSide(second);
  differences.add("file", one.attributes, other.attributes, null);
  let isRead = true;
  try {
    compareItems(differences, first.layer.items, places, ofItems(first.layer, first.bytes), ofItems(second.layer, second.bytes));
  } catch (fault) {
    if (!(fault instanceof NotJoined)) throw fault;
    isRead = false;
  }
  const { dates, comments } = comparedComments(one.comments, other.comments), isDate = (/** @type {Said} */ { name }) => DATES.includes(name);
  return { dates: [...differences.list.filter(isDate), ...dates], attributes: differences.list.filter((said) => !isDate(said)), comments, isRead };
}
