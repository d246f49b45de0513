// The canonical text of a layer with the attributes of its items and apertures.
//
// The station writes what paints, and no attributes of apertures and objects. This puts them into its text:
//
//     const bytes = withAttributes(canonical, saidOf(state, "top"), apertures, blocks);
//
// - `%TA..*%` before the definitions of apertures and blocks, `%TO..*%` before what makes an object (its D01, its D03, or
//   the G36 of its region), of a region `%TA..*%` too;
// - between two objects only what differs: attributes that are set, `%TD..*%` for those that are deleted, or `%TD*%` for
//   all where that takes fewer lines;
// - all else stays byte for byte.
//
// A station that loads the text writes the same canonical text again, and `readAttributes` reads the same of each item:
// `checkedWithAttributes` lets a station load it, and throws where that is not so.

import { latin1, latin1Bytes } from "../bytes/index.js";
import { Commands, packed } from "./commands.js";
import { NOTHING, readAttributes } from "./read.js";
import { OBJECT } from "./text.js";

/** @typedef {import("./text.js").Attribute} Attribute */
/** @typedef {import("./read.js").Said} Said */
/** @typedef {import("./read.js").Objects} Objects */

const BLOCK = /^D(\d+)$/;
const DEFINITION = /^D(\d+)/;
const MAKES = /D0[13]$/;

/** The text with attributes is not the layer's: a station makes another layer of it, or it tells other attributes. */
export class NotTheSame extends Error {}

// The attributes in force in what is written, and the commands that put others in force.
class Written {
  constructor() {
    /** @type {Map<string, Attribute>} */
    this.held = new Map();
  }

  /**
   * The commands after which exactly these attributes hold, of the kinds that matter.
   * @param {readonly Attribute[]} wanted
   * @param {IsOfKind} isOfKind
   */
  commandsFor(wanted, isOfKind) {
    const names = new Set(wanted.map(({ name }) => name));
    const gone = [...this.held.values()].filter((attribute) => isOfKind(attribute) && !names.has(attribute.name));
    const set = wanted.filter(({ name, text }) => this.held.get(name)?.text !== text);
    // TD without a name deletes all, so an attribute without one is deleted by that alone.
    const isAll = gone.some(({ name }) => name === "") || gone.length + set.length > 1 + wanted.length;
    if (isAll) this.held.clear();
    else for (const { name } of gone) this.held.delete(name);
    for (const attribute of wanted) this.held.set(attribute.name, attribute);
    return isAll ? ["TD", ...wanted.map(({ text }) => text)]
      : [...gone.map(({ name }) => `TD${name}`), ...set.map(({ text }) => text)];
  }
}

/** @typedef {(attribute: Attribute) => boolean} IsOfKind */

/** @type {IsOfKind} */
const isOfObject = ({ command }) => command === OBJECT;
/** @type {IsOfKind} */
const isOfAperture = ({ command }) => command !== OBJECT;
const isAny = () => true;

class Writer {
  /**
   * @param {Uint8Array} canonical
   * @param {Iterable<Said>} items
   * @param {Map<number, readonly Attribute[]>} apertures
   * @param {Map<number, Objects>} blocks
   */
  constructor(canonical, items, apertures, blocks) {
    this.source = latin1(canonical);
    this.commands = new Commands(this.source);
    this.apertures = apertures;
    this.blocks = blocks;
    this.written = new Written();
    /** @type {string[]} */
    this.pieces = [];
    this.copied = 0;
    // What is said of the objects to come: of the layer, and of the open block or repeat.
    this.homes = [items[Symbol.iterator]()];
    this.isInRegion = false;
  }

  /** @param {readonly Attribute[]} attributes @param {IsOfKind} isOfKind */
  put(attributes, isOfKind) {
    const commands = this.written.commandsFor(attributes, isOfKind);
    if (commands.length === 0) return;
    this.pieces.push(this.source.slice(this.copied, this.commands.at), ...commands.map((text) => `%${text}*%\n`));
    this.copied = this.commands.at;
  }

  // What is said of the next object here.
  next() {
    const said = this.homes.at(-1)?.next();
    if (!said || said.done) throw this.commands.fault("more objects than something is said of");
    return said.value;
  }

  close() {
    const rest = this.homes.pop();
    if (!rest || !rest.next().done) throw this.commands.fault("fewer objects than something is said of");
  }

  /** @param {{name: string, text: string}} command */
  extended({ name, text }) {
    const data = packed(text);
    if (name === "AD") {
      this.put(this.apertures.get(Number(DEFINITION.exec(data)?.[1])) ?? [], isOfAperture);
    } else if (name === "AB" && data !== "") {
      const number = Number(BLOCK.exec(data)?.[1]), block = this.blocks.get(number);
      if (!block) throw this.commands.fault("nothing is known of the block");
      this.put(this.apertures.get(number) ?? [], isOfAperture);
      this.homes.push(block.said[Symbol.iterator]());
    } else if (name === "SR" && data !== "") {
      this.homes.push(this.next().objects[Symbol.iterator]());
    } else if (name === "AB" || name === "SR") {
      this.close();
    }
  }

  /** @param {string} text */
  word(text) {
    if (text === "G36") {
      this.isInRegion = true;
      this.put(this.next().attributes, isAny);
    } else if (text === "G37") {
      this.isInRegion = false;
    } else if (!this.isInRegion && MAKES.test(text)) {
      this.put(this.next().attributes, isOfObject);
    }
  }

  text() {
    const { commands } = this;
    while (commands.next()) {
      if (commands.isExtended) this.extended(commands.extended());
      else this.word(commands.text);
    }
    this.close();
    if (this.homes.length) throw commands.fault("a block or a repeat is open");
    this.pieces.push(this.source.slice(this.copied));
    return this.pieces.join("");
  }
}

/**
 * A layer's canonical text with the attributes of its items and apertures.
 * @param {Uint8Array} canonical the text that a station writes of the layer
 * @param {Iterable<Said>} items what is said of each item
 * @param {Map<number, readonly Attribute[]>} apertures of each aperture and block, by its number
 * @param {Map<number, Objects>} [blocks] of the objects of each block, by its number
 * @returns {Uint8Array}
 * @throws {import("./commands.js").NotJoined} where the text has other items, or other objects in a block or a repeat
 */
export function withAttributes(canonical, items, apertures, blocks = new Map()) {
  return latin1Bytes(new Writer(canonical, items, apertures, blocks).text());
}

/** @type {(one: Uint8Array, other: Uint8Array) => boolean} */
const isSame = (one, other) => one.length === other.length && one.every((byte, at) => byte === other[at]);
/** @type {(attributes: readonly Attribute[]) => string} */
const textsOf = (attributes) => attributes.map(({ text }) => text).join("*");

/** @param {readonly Attribute[]} one @param {readonly Attribute[]} other @param {string} what */
function checkSame(one, other, what) {
  if (textsOf(one) !== textsOf(other)) throw new NotTheSame(`${what}: ${textsOf(one)} in place of ${textsOf(other)}`);
}

/** @param {readonly Said[]} read @param {Iterable<Said>} wanted @param {string} what */
function checkObjects(read, wanted, what) {
  const ours = [...wanted];
  if (read.length !== ours.length) throw new NotTheSame(`${what}: ${read.length} in place of ${ours.length}`);
  read.forEach((said, at) => {
    const { attributes, objects } = ours[at] ?? NOTHING;
    checkSame(said.attributes, attributes, `${what} ${at}`);
    checkObjects(said.objects, objects, `${what} ${at}, object`);
  });
}

/**
 * The same, once a station has loaded it: the station's canonical text of it is the layer's, byte for byte, and what it
 * says of each item and aperture is what was to be said.
 * @param {Uint8Array} canonical
 * @param {Iterable<Said>} items
 * @param {Map<number, readonly Attribute[]>} apertures
 * @param {Map<number, Objects>} blocks
 * @param {(bytes: Uint8Array) => Uint8Array | Promise<Uint8Array>} load the canonical text that a station of its own writes
 *   of bytes that it loads; throws where it refuses them
 * @returns {Promise<Uint8Array>}
 * @throws {import("./commands.js").NotJoined}
 * @throws {NotTheSame}
 */
export async function checkedWithAttributes(canonical, items, apertures, blocks, load) {
  const bytes = withAttributes(canonical, items, apertures, blocks);
  if (!isSame(await load(bytes), canonical)) throw new NotTheSame("a station makes another layer of the text");
  const read = readAttributes(bytes);
  checkObjects(read.items, items, "item");
  for (const [number, attributes] of read.apertures) {
    checkSame(attributes, apertures.get(number) ?? [], `aperture ${number}`);
  }
  for (const [number, { said }] of read.blocks) checkObjects(said, blocks.get(number)?.said ?? [], `block ${number}, object`);
  return bytes;
}
