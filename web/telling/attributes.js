// What a file says of an item, in words: its net, its component and pin, and what else its attributes have (Gerber Layer Format
// Specification, "Object attributes").

import { plainText } from "../attributes/index.js";

/** @typedef {import("../attributes/index.js").Attribute} Attribute */
/** @typedef {[name: string, value: string]} Row */

// A field without escapes, in ASCII, as nearly all are.
const PLAIN = /^[ -[\]-~]*$/;

/**
 * What a name or a field says, with its escapes undone.
 * @param {string} raw a character for each byte
 * @returns {string}
 */
export function plain(raw) {
  return PLAIN.test(raw) ? raw : plainText(raw);
}

// What people call the attributes of a component.
const NAMES = new Map([[".CVal", "value"], [".CPkg", "package"], [".CFtp", "footprint"], [".CMfr", "manufacturer"],
  [".CMPN", "part number"], [".CMnt", "mounting"], [".CRot", "rotation"], [".CHgt", "height"], [".CLbN", "library"],
  [".CLbD", "library's description"], [".CSup", "supplier"]]);
const MOUNTINGS = new Map([["TH", "through the board"], ["SMD", "on the surface"], ["Pressfit", "press fit"], ["Other", "other"]]);
// These have words of their own.
const OWN = new Set([".N", ".C", ".P", ".AperFunction"]);

/**
 * The fields of an attribute, as they are read.
 * @param {readonly Attribute[]} attributes
 * @param {string} name
 * @returns {string[] | null} null where there is none
 */
export function fieldsOf(attributes, name) {
  const found = attributes.find((attribute) => attribute.name === name);
  return found ? found.fields.map((field) => plain(field)) : null;
}

/**
 * The nets of an item; none where it is in none.
 * @param {readonly Attribute[]} attributes
 * @returns {string[] | null} null where the file says nothing of one
 */
export function netsOf(attributes) {
  return fieldsOf(attributes, ".N")?.filter((net) => net !== "" && net !== "N/C") ?? null;
}

/**
 * The component of an item, its pin, and what that pin does.
 * @param {readonly Attribute[]} attributes
 * @returns {{component: string | null, pin: string | null, does: string | null}}
 */
export function pinOf(attributes) {
  const [component, pin, does] = fieldsOf(attributes, ".P") ?? [], [own] = fieldsOf(attributes, ".C") ?? [];
  return { component: component || own || null, pin: pin || null, does: does || null };
}

/** @param {readonly Attribute[]} attributes @returns {Row[]} */
function netRows(attributes) {
  const fields = fieldsOf(attributes, ".N"), nets = netsOf(attributes);
  if (!fields || !nets) return [];
  if (nets.length) return [[nets.length === 1 ? "net" : "nets", nets.join(", ")]];
  return [["net", fields.includes("N/C") ? "none, this pad is not connected" : "none"]];
}

/** @param {Attribute} attribute @returns {Row} */
function rowOf({ name, fields }) {
  const value = fields.map((field) => plain(field)).join(", ");
  return [NAMES.get(name) ?? plain(name), name === ".CMnt" ? MOUNTINGS.get(value) ?? value : value];
}

/** @param {Attribute} attribute */
const isOfComponent = ({ name }) => NAMES.has(name);

/**
 * What a file says of an item, a row each: net, component, pin and its name, value, then all else.
 * @param {readonly Attribute[]} attributes of the item
 * @param {Components} components of the board
 * @returns {Row[]}
 */
export function attributeRows(attributes, components) {
  const { component, pin, does } = pinOf(attributes), rows = netRows(attributes);
  if (component !== null) rows.push(["component", component]);
  if (pin !== null) rows.push(["pin", does === null ? pin : `${pin} (${does})`]);
  const own = attributes.filter(isOfComponent), more = [...components.get(component ?? "")?.values() ?? []];
  const others = more.filter(({ name }) => !own.some((attribute) => attribute.name === name));
  const all = [...own, ...others].map(rowOf), order = [...NAMES.values()];
  all.sort(([one], [other]) => order.indexOf(one) - order.indexOf(other));
  return [...rows, ...all, ...attributes.filter((attribute) => !isOfComponent(attribute) && !OWN.has(attribute.name)).map(rowOf)];
}

/** @typedef {Map<string, Map<string, Attribute>>} Components what files say of components, by their names */

/**
 * What the files of a board say of its components, wherever they say it: a value stands where a component is placed, and its pads
 * have its name alone.
 * @param {readonly import("./layers.js").ToldLayer[]} layers
 * @returns {Components}
 */
export function componentsOf(layers) {
  /** @type {Components} */
  const components = new Map();
  /** @type {readonly Attribute[] | null} */
  let last = null;
  /** @param {readonly import("../attributes/index.js").Said[]} list */
  const read = (list) => {
    for (const { attributes, objects } of list) {
      if (objects.length) read(objects);
      // (items after one another share what is said of them)
      if (attributes === last) continue;
      last = attributes;
      const component = attributes.some(isOfComponent) ? pinOf(attributes).component : null;
      if (component === null) continue;
      /** @type {Map<string, Attribute>} */
      const known = components.get(component) ?? new Map();
      for (const attribute of attributes.filter(isOfComponent)) if (!known.has(attribute.name)) known.set(attribute.name, attribute);
      components.set(component, known);
    }
  };
  for (const { said, says } of layers) {
    read(said);
    for (const block of says?.blocks.values() ?? []) read(block.said);
  }
  return components;
}
