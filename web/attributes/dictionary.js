// The attributes that hold at a place of a Gerber file. Gerber Layer Format Specification, "Attribute dictionary".

import { APERTURE, Attribute, OBJECT, inOneLine } from "./text.js";

/**
 * No attribute.
 * @type {readonly Attribute[]}
 */
export const NONE = Object.freeze([]);

/**
 * Aperture attributes and object attributes; a name has one of them, the one that was set last. The lists are in the
 * order of names, and equal attributes in them are the same object.
 */
export class Dictionary {
  constructor() {
    /** @type {Attribute[]} in the order of names */
    this.held = [];
    /** @type {Map<string, Attribute>} */
    this.known = new Map();
    /** @type {readonly Attribute[] | null} */
    this.ofApertures = null;
    /** @type {readonly Attribute[] | null} */
    this.ofObjects = null;
    /** @type {readonly Attribute[] | null} */
    this.ofRegions = null;
  }

  forget() {
    this.ofApertures = null;
    this.ofObjects = null;
    this.ofRegions = null;
  }

  /**
   * TA and TO: an attribute is set.
   * @param {string} command
   * @param {string} text what stands behind it, up to the `*`
   */
  set(command, text) {
    const whole = command + inOneLine(text);
    let attribute = this.known.get(whole);
    if (!attribute) this.known.set(whole, attribute = new Attribute(whole));
    const { name } = attribute, found = this.held.findIndex((held) => held.name >= name), at = found < 0 ? this.held.length : found;
    this.held.splice(at, this.held[at]?.name === name ? 1 : 0, attribute);
    this.forget();
  }

  /**
   * TD: the attribute of a name goes, or all where there is none.
   * @param {string} text what stands behind it
   */
  drop(text) {
    const [name = ""] = inOneLine(text).split(",");
    this.held = name === "" ? [] : this.held.filter((attribute) => attribute.name !== name);
    this.forget();
  }

  /**
   * What an aperture has that is defined now.
   * @returns {readonly Attribute[]}
   */
  get apertures() {
    return this.ofApertures ??= this.only(APERTURE);
  }

  /**
   * What an object has that is made now.
   * @returns {readonly Attribute[]}
   */
  get objects() {
    return this.ofObjects ??= this.only(OBJECT);
  }

  /** What a region has that is made now: it has no aperture, so aperture attributes are its own. */
  get regions() {
    return this.ofRegions ??= this.held.slice();
  }

  /** @param {string} command */
  only(command) {
    const wanted = this.held.filter((attribute) => attribute.command === command);
    return wanted.length ? wanted : NONE;
  }
}
