// What a board can be searched for: its nets, components, pins, apertures, tools and attributes, each with the items that it
// lights. It is made once for the layers as they are, in one pass over their items.

import { componentsOf, fieldsOf, netsOf, pinOf, plain } from "./attributes.js";
import { functionWords } from "./functions.js";
import { shapeWords } from "./shapes.js";

/** @typedef {import("./layers.js").ToldLayer} ToldLayer */
/** @typedef {import("./measures.js").Unit} Unit */
/** @typedef {import("../attributes/index.js").Attribute} Attribute */
/** @typedef {"net" | "component" | "pin" | "aperture" | "tool" | "attribute"} Kind */

/**
 * Items of a layer by their places; null where it is all of them.
 * @typedef {{layer: string, places: number[] | null}} Lights
 */

/**
 * What can be found.
 * @typedef {object} Entry
 * @property {Kind} kind
 * @property {string} id its own among those of its kind: the name of a net, a component or a pin; of an aperture and a tool the
 *   layer's name and the number; of an attribute its text
 * @property {string} text as it is shown
 * @property {string} detail what is shown behind it
 * @property {string[]} keys the texts that are searched, folded
 * @property {Lights[]} lights
 */

/** @type {Kind[]} */
export const KINDS = ["net", "component", "pin", "aperture", "tool", "attribute"];

// These have kinds of their own.
const OWN = new Set([".N", ".P"]);

/**
 * A text as it is compared: small letters, and single blanks.
 * @param {string} text
 */
export function folded(text) {
  return text.toLowerCase().replace(/\s+/g, " ").trim();
}

/**
 * What the entry of an aperture or a tool is called.
 * @param {ToldLayer} layer
 * @param {number} number
 * @returns {{kind: Kind, id: string, text: string}}
 */
export function headOfEntry(layer, number) {
  const isTool = layer.kind === "drill", text = `${isTool ? "T" : "D"}${number}`;
  return { kind: isTool ? "tool" : "aperture", id: `${layer.name} ${text}`, text };
}

/** @param {string[]} texts */
const keysOf = (texts) => [...new Set(texts.map(folded))].filter((key) => key);

class Making {
  /** @param {readonly ToldLayer[]} layers @param {Unit} unit */
  constructor(layers, unit) {
    this.unit = unit;
    this.components = componentsOf(layers);
    /** @type {Map<Kind, Map<string, Entry>>} */
    this.kinds = new Map(KINDS.map((kind) => [kind, new Map()]));
  }

  /** @param {Kind} kind @param {string} id @param {() => {text: string, detail: string, keys: string[]}} make @returns {Entry} */
  entry(kind, id, make) {
    const known = /** @type {Map<string, Entry>} */ (this.kinds.get(kind)), found = known.get(id);
    if (found) return found;
    const { text, detail, keys } = make(), entry = { kind, id, text, detail, keys: keysOf(keys), lights: [] };
    known.set(id, entry);
    return entry;
  }

  /** @param {string} net */
  net(net) {
    return this.entry("net", net, () => ({ text: net, detail: "", keys: [net] }));
  }

  /** @param {string} component */
  component(component) {
    const said = this.components.get(component);
    const details = [".CVal", ".CPkg"].flatMap((name) => said?.get(name)?.fields.map(plain).join(", ") ?? []);
    return this.entry("component", component, () => ({ text: component, detail: details.join(", "), keys: [component, ...details] }));
  }

  /** @param {string} component @param {string} pin @param {string | null} does */
  pin(component, pin, does) {
    const text = `${component}-${pin}`;
    return this.entry("pin", text, () => ({ text, detail: does ?? "", keys: [text, does ?? ""] }));
  }

  /** @param {string} name @param {string[]} fields */
  attribute(name, fields) {
    const value = fields.join(","), text = value ? `${name} ${value}` : name;
    return this.entry("attribute", text, () => ({ text, detail: "", keys: [text, name.replace(/^\./, ""), value] }));
  }

  /** @param {readonly Attribute[]} attributes @returns {Entry[]} */
  ofAttributes(attributes) {
    const { component, pin, does } = pinOf(attributes), entries = (netsOf(attributes) ?? []).map((net) => this.net(net));
    if (component !== null) entries.push(this.component(component));
    if (component !== null && pin !== null) entries.push(this.pin(component, pin, does));
    for (const { name } of attributes.filter((attribute) => !OWN.has(attribute.name) && attribute.name !== ".C")) {
      entries.push(this.attribute(plain(name), fieldsOf(attributes, name) ?? []));
    }
    return entries;
  }

  /** @param {ToldLayer} layer @param {number} number @returns {Entry} */
  aperture(layer, number) {
    const { kind, id, text } = headOfEntry(layer, number), shape = layer.shapes.get(number);
    const name = layer.says?.macros.get(number) ?? "", does = functionWords(layer.ofAperture(number));
    const words = shape ? shapeWords(shape, this.unit, name ? { name } : {}) : "";
    return this.entry(kind, id, () => ({ text,
      detail: [words, does, layer.label].filter((part) => part).join(", "), keys: [text, String(number), words, does, name] }));
  }
}

/** @param {Entry} entry @param {string} layer @param {number} place */
function light({ lights }, layer, place) {
  const last = lights[lights.length - 1];
  if (last?.layer !== layer) lights.push({ layer, places: [place] });
  else if (last.places && last.places[last.places.length - 1] !== place) last.places.push(place);
}

// The entries of a layer's items.
class OfLayer {
  /** @param {Making} making @param {ToldLayer} layer */
  constructor(making, layer) {
    this.making = making;
    this.layer = layer;
    /** @type {Map<readonly Attribute[], Entry[]>} */
    this.bySaid = new Map();
    /** @type {Map<string, Entry[]>} */
    this.byNumber = new Map();
    /** @type {Map<number, Entry[]>} */
    this.byBlock = new Map();
  }

  /** @param {readonly Attribute[]} attributes */
  ofAttributes(attributes) {
    let found = this.bySaid.get(attributes);
    if (!found) this.bySaid.set(attributes, found = this.making.ofAttributes(attributes));
    return found;
  }

  /** @param {string} words those of an item; or the head of one, its kind and number @returns {Entry[]} */
  ofNumber(words) {
    const [kind, word] = words.split(" ", 2), number = Number(word);
    if (kind === "region" || kind === "repeat" || word === undefined || !Number.isInteger(number)) return [];
    const key = kind === "flash" ? word : `pen ${word}`, known = this.byNumber.get(key);
    if (known) return known;
    const { making, layer } = this, entries = [making.aperture(layer, number), ...this.ofAttributes(layer.ofAperture(number))];
    if (kind === "flash") entries.push(...this.ofBlock(number));
    this.byNumber.set(key, entries);
    return entries;
  }

  // What the objects of a block have; none of another aperture.
  /** @param {number} number @returns {Entry[]} */
  ofBlock(number) {
    const known = this.byBlock.get(number), block = this.layer.says?.blocks.get(number), shape = this.layer.shapes.get(number);
    if (known || shape?.kind !== "block") return known ?? [];
    this.byBlock.set(number, []);
    const entries = new Set((block?.said ?? []).flatMap(({ attributes }) => this.ofAttributes(attributes)));
    for (const words of shape.objects) for (const entry of this.ofNumber(words)) entries.add(entry);
    this.byBlock.set(number, [...entries]);
    return [...entries];
  }

  add() {
    const { layer, making } = this, { name, said } = layer;
    for (const number of layer.shapes.keys()) making.aperture(layer, number);
    for (const [key, fields] of layer.attributes) making.attribute(key, fields).lights.push({ layer: name, places: null });
    layer.items.forEach(({ words, objects }, place) => {
      const own = said[place];
      for (const entry of this.ofNumber(words)) light(entry, name, place);
      if (own) for (const entry of this.ofAttributes(own.attributes)) light(entry, name, place);
      objects.forEach((object, at) => {
        for (const entry of this.ofNumber(object)) light(entry, name, place);
        for (const entry of this.ofAttributes(own?.objects[at]?.attributes ?? [])) light(entry, name, place);
      });
    });
  }
}

// So many digits a number has that is ordered as one.
const DIGITS = 12;

// In the order of people: R2 before R10.
/** @param {Entry[]} entries */
function ordered(entries) {
  const keyed = entries.map((entry) => ({ entry, key: `${folded(entry.text)} ${entry.id}`.replace(/\d+/g, (run) => run.padStart(DIGITS, "0")) }));
  keyed.sort((one, other) => one.key < other.key ? -1 : Number(one.key > other.key));
  return keyed.map(({ entry }) => entry);
}

/** What a board can be searched for. */
export class Index {
  /**
   * @param {Unit} unit in which the sizes of apertures are
   * @param {Map<Kind, Map<string, Entry>>} kinds
   */
  constructor(unit, kinds) {
    this.unit = unit;
    this.kinds = kinds;
    /** @type {Map<Kind, Entry[]>} in the order in which they are shown */
    this.ordered = new Map([...kinds].map(([kind, entries]) => [kind, ordered([...entries.values()])]));
  }

  /**
   * One of them.
   * @param {Kind} kind
   * @param {string} id
   * @returns {Entry | null}
   */
  get(kind, id) {
    return this.kinds.get(kind)?.get(id) ?? null;
  }
}

/**
 * The index of a board.
 * @param {readonly ToldLayer[]} layers
 * @param {Unit} unit
 * @returns {Index}
 */
export function indexOf(layers, unit) {
  const making = new Making(layers, unit);
  for (const layer of layers) new OfLayer(making, layer).add();
  return new Index(unit, making.kinds);
}
