// What an item shares with others: its nets, its component, and its aperture or tool. Each is an entry of the board's index, which has
// all items that share it.

import { netsOf, pinOf } from "./attributes.js";
import { headOfEntry } from "./search_index.js";
import { itemOf } from "./paths.js";

/** @typedef {import("./layers.js").ToldLayer} ToldLayer */

/**
 * @typedef {object} Alike
 * @property {import("./search_index.js").Kind} kind
 * @property {string} id as the index has it
 * @property {string} text as it is shown
 */

/**
 * What an item shares with others, in the order in which it is told: nets, the component, the aperture or tool.
 * @param {ToldLayer} layer
 * @param {number} place its place in the layer's list
 * @returns {Alike[]} none where no item is there
 */
export function alikeOf(layer, place) {
  const found = layer.items[place], item = found && itemOf(found.words);
  if (!item) return [];
  const { attributes } = layer.said[place] ?? { attributes: [] }, { component } = pinOf(attributes);
  /** @type {Alike[]} */
  const alike = (netsOf(attributes) ?? []).map((net) => ({ kind: "net", id: net, text: net }));
  if (component !== null) alike.push({ kind: "component", id: component, text: component });
  if (item.number !== null) alike.push(headOfEntry(layer, item.number));
  return alike;
}
