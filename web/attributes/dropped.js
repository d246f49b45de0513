// What a file tells that is lost when its layer is saved as the station writes it, to be said before that is done.
//
// Of a Gerber file the station keeps what paints and the file attributes (%TF..*%); attributes of apertures and objects
// can be saved with it all the same (write.js). Of a drill file it keeps the tools, the holes and the slots alone: XNC
// has its attributes in comments (`; #@! TA.AperFunction,..`), and none of them is kept.

import { latin1 } from "../bytes/index.js";
import { DRILL, kindOf } from "../board/index.js";
import { readAttributes } from "./read.js";
import { APERTURE, OBJECT } from "./text.js";

/**
 * What is lost of a kind, and how often.
 * @typedef {object} Dropped
 * @property {"TO" | "TA" | "TF" | "comment" | "name"} kind of objects, of apertures, of the file, or no attribute
 * @property {string} name of the attribute, as `.N`; nothing of what is none
 * @property {number} count the objects, the apertures or regions, or the lines that have it
 */

const WORDS = new Map([[".N", "net names"], [".P", "pins"], [".C", "component names"],
  [".AperFunction", "functions of apertures"]]);
const OTHERS = new Map([["comment", "comments"], ["name", "names of the image or of a layer"],
  ["TF", "file attributes in comments"]]);
const STANDARD = /^[^;\n\r]*;[ \t]*#@![ \t]*(T[AFO])([^,\r\n]*)/;
const COMMENT = /^[^;\n\r]*;/;

// Counts by kind and name, in the order in which they first came.
class Counts {
  constructor() {
    /** @type {Map<string, Dropped>} */
    this.found = new Map();
  }

  /** @param {Dropped["kind"]} kind @param {string} name @param {number} count */
  add(kind, name = "", count = 1) {
    if (count === 0) return;
    const key = `${kind}${name}`;
    const known = this.found.get(key) ?? { kind, name, count: 0 };
    known.count += count;
    this.found.set(key, known);
  }

  get list() {
    return [...this.found.values()];
  }
}

/** @param {Counts} counts @param {readonly import("./read.js").Said[]} objects */
function countObjects(counts, objects) {
  for (const { attributes, objects: own } of objects) {
    for (const { command, name } of attributes) counts.add(command, name);
    countObjects(counts, own);
  }
}

/**
 * What saving a layer without attributes drops of a Gerber file.
 * @param {import("./read.js").Reading} reading
 * @returns {Dropped[]}
 */
function droppedOf({ items, apertures, blocks, others }) {
  const counts = new Counts();
  countObjects(counts, items);
  for (const { said } of blocks.values()) countObjects(counts, said);
  for (const attributes of apertures.values()) for (const { name } of attributes) counts.add(APERTURE, name);
  counts.add("TF", "", others.fileAttributes);
  counts.add("comment", "", others.comments);
  counts.add("name", "", others.names);
  return counts.list;
}

/** @param {Uint8Array} bytes */
function droppedOfDrill(bytes) {
  const counts = new Counts();
  for (const line of latin1(bytes).split(/\r\n|\r|\n/)) {
    const [, command, name = ""] = STANDARD.exec(line) ?? [];
    if (command) counts.add(/** @type {"TA" | "TF" | "TO"} */ (command), command === "TF" ? "" : name.trim());
    else if (COMMENT.test(line)) counts.add("comment");
    if (/^[ \t]*M30/.test(line)) break;
  }
  return counts.list;
}

/**
 * What saving a layer without attributes drops, by the file that it was loaded from.
 * @param {Uint8Array} bytes a file that a station has loaded
 * @returns {Dropped[]} nothing where nothing is lost
 */
export function dropped(bytes) {
  return kindOf(bytes) === DRILL ? droppedOfDrill(bytes) : droppedOf(readAttributes(bytes));
}

/**
 * What is lost, in words, as `52 pins (.P)`.
 * @param {Dropped} lost
 * @returns {string}
 */
export function droppedWords({ kind, name, count }) {
  const plain = OTHERS.get(kind);
  if (plain) return `${count} ${plain}`;
  const words = WORDS.get(name) ?? (kind === OBJECT ? "attributes of objects" : "attributes of apertures");
  return `${count} ${words} (${name})`;
}
