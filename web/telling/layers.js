// A layer with all that is known of it: what a station answers, what its file says, and what people call it.

import { latin1 } from "../bytes/index.js";
import { plainText } from "../attributes/index.js";
import { itemsOf } from "./paths.js";
import { shapesOf } from "./shapes.js";

/** @typedef {import("./files.js").FileSays} FileSays */
/** @typedef {import("../attributes/index.js").Said} Said */
/** @typedef {"copper" | "mask" | "silk" | "paste" | "glue" | "outline" | "holes" | "drawing" | "other"} Group */

/**
 * What a layer is made of.
 * @typedef {object} Parts
 * @property {string} name its name in a script
 * @property {string} label what people call it, as `top copper`
 * @property {string} shows the name of its function, as `top-mask` (web/layer_functions.js)
 * @property {"gerber" | "drill"} kind
 * @property {string} fileName without folders
 * @property {readonly string[]} items the lines of the answer to `items NAME 0 COUNT`
 * @property {readonly string[]} entries the lines of the answer to `entries NAME`
 * @property {readonly string[]} attributes the lines of the answer to `attributes NAME`
 * @property {FileSays | null} says what its file says; null where that was not read
 * @property {Iterable<Said> | null} [said] what is said of each item now, where edits moved them (web/attributes/carry.js)
 */

const encoder = new TextEncoder();

/**
 * A field of an attribute as a station answers it, with its escapes undone.
 * @param {string} field
 */
export function plainField(field) {
  return plainText(latin1(encoder.encode(field)));
}

/** @param {string} shows @returns {Group} */
function groupOf(shows) {
  if (/^(?:top|bottom|in\d+)$/.test(shows)) return "copper";
  const side = /^(?:top|bottom)-(mask|silk|paste|glue)$/.exec(shows);
  if (side) return /** @type {Group} */ (side[1]);
  if (shows === "plated" || shows === "nonplated" || shows === "holes") return "holes";
  return shows === "outline" || shows === "drawing" ? shows : "other";
}

const PLATED = new Map([["Plated", true], ["NonPlated", false], ["plated", true], ["nonplated", false]]);

/** A layer of a board, with what follows from its parts. */
export class ToldLayer {
  /** @param {Parts} parts */
  constructor({ name, label, shows, kind, fileName, items, entries, attributes, says, said = says?.items ?? null }) {
    this.name = name;
    this.label = label;
    this.shows = shows;
    this.kind = kind;
    this.fileName = fileName;
    this.items = itemsOf(items);
    this.shapes = shapesOf(entries);
    this.says = says;
    /** @type {readonly Said[]} */
    this.said = said ? [...said] : [];
    this.group = groupOf(shows);
    /** @type {Map<string, string[]>} file attributes by their names; those of commands count before those in comments */
    this.attributes = new Map([...says?.attributes ?? [], ...attributes].map((line) => {
      const [key = "", ...fields] = line.split(",");
      return [key, fields.map((field) => plainField(field).trim())];
    }));
  }

  /** The fields of its file function, as `Copper`, `L1`, `Top`; none where its file names none. */
  get functionFields() {
    return this.attributes.get(".FileFunction") ?? [];
  }

  /** Whether what it shows is where there is no material, as the openings of a solder mask. */
  get isNegative() {
    return this.attributes.get(".FilePolarity")?.[0] === "Negative";
  }

  /**
   * The attributes of an aperture, a block or a tool.
   * @param {number | null} number
   * @returns {readonly import("../attributes/index.js").Attribute[]}
   */
  ofAperture(number) {
    return (number === null ? undefined : this.says?.apertures.get(number)) ?? [];
  }

  /**
   * Whether the holes of a tool are plated: as its own function tells it, else that of the file, else the name of what it shows.
   * @param {number | null} number
   * @returns {boolean | null} null where nothing tells it
   */
  isPlated(number) {
    const own = this.ofAperture(number).find(({ name }) => name === ".AperFunction")?.fields[0] ?? "";
    return PLATED.get(own.trim()) ?? PLATED.get(this.functionFields[0] ?? "") ?? PLATED.get(this.shows) ?? null;
  }
}
