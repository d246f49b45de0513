// An item in words: what it is, how large, where, and what its file says of it.
//
//     const told = itemWords(layer, 31, { unit: "mm" });
//     told.head                      pad, round rectangle 1.00 by 1.20 mm, at 108.585, -125.730
//     sentenceOf(told)               the same; net GND; component R1; pin 1; layer: top copper
//
// What is not known is not said. Lengths have all digits that they have; one that was rounded says `about`.

import { attributeRows } from "./attributes.js";
import { boxOf, cornersOf, distance, isCircle, itemOf, lengthOf, sidesOf } from "./paths.js";
import { boxText, counted, lengthText, placeText, sidesText, sizeText } from "./measures.js";
import { functionWords, nounOf } from "./functions.js";
import { shapeWords } from "./shapes.js";

/** @typedef {import("./layers.js").ToldLayer} ToldLayer */
/** @typedef {import("./measures.js").Unit} Unit */
/** @typedef {import("./paths.js").Item} Item */
/** @typedef {import("./paths.js").Flash} Flash */
/** @typedef {import("./paths.js").Stroke} Stroke */
/** @typedef {import("./measures.js").Pair} Pair */
/** @typedef {Pick<import("./paths.js").Rout, "number" | "points" | "ways">} Drilled a hole or a slot */
/** @typedef {import("./shapes.js").Shape} Shape */
/** @typedef {import("../attributes/index.js").Attribute} Attribute */

/**
 * An item in words.
 * @typedef {object} Told
 * @property {string} head what it is, how large and where
 * @property {import("./attributes.js").Row[]} rows what its file says of it, its aperture or tool, and its layer
 * @property {string} line the station's own words
 */

/**
 * @typedef {object} Context
 * @property {Unit} unit
 * @property {import("./attributes.js").Components} [components] what is known of the components of the board
 */

// A part of an item's words, with the unit at the end where no size has it.
/** @param {string[]} parts @param {string} where @param {Unit} unit */
function withPlace(parts, where, unit) {
  const said = parts.filter((part) => part).join(", ");
  return `${said}, ${where}${said.includes(` ${unit}`) ? "" : ` ${unit}`}`;
}

/** @param {Item} item */
const polarity = ({ isDark }) => isDark ? "" : "clear";

/** @param {Flash} item @param {Shape | undefined} shape */
function turnOfBlock({ turn }, shape) {
  if (shape?.kind !== "block" || turn === "r0") return "";
  const angle = Number(turn.slice(1)), words = angle ? `turned by ${angle}°` : "";
  return [turn.startsWith("m") ? "mirrored" : "", words].filter((word) => word).join(" and ");
}

/** @param {Flash} item @param {string} noun @param {Shape | undefined} shape @param {ToldLayer} layer @param {Unit} unit */
function flashWords(item, noun, shape, layer, unit) {
  const { number, turn, points: [point] } = item, name = layer.says?.macros.get(number);
  const size = shape ? shapeWords(shape, unit, { turn, name }) : "", isBlock = shape?.kind === "block";
  if (isSlot(layer, item, shape)) return holeWords(item, shape, layer, unit);
  return withPlace([isBlock ? size : noun, isBlock ? turnOfBlock(item, shape) : size, polarity(item)], `at ${placeText(point, unit)}`, unit);
}

/** @param {string} noun @param {Shape | undefined} shape @param {string} turn @param {Unit} unit */
function penWords(noun, shape, turn, unit) {
  if (shape?.kind === "circle" && shape.width) return `${noun} ${sizeText(shape.width.nm, unit)} ${unit} wide`;
  const words = shape ? shapeWords(shape, unit, { turn }) : "";
  return words ? `${noun} with a ${words}` : noun;
}

/** @param {Pair} from @param {Pair} to @param {Unit} unit */
const betweenWords = (from, to, unit) => `from ${placeText(from, unit)} to ${placeText(to, unit)}`;

/** @param {Stroke} item @param {string} noun @param {Shape | undefined} shape @param {Unit} unit */
function drawWords(item, noun, shape, unit) {
  const pen = penWords(noun, shape, item.turn, unit), length = lengthOf(item.ways), [{ from, to }] = item.ways;
  if (length.nm === 0) return withPlace([pen, "of no length", polarity(item)], `at ${placeText(from, unit)}`, unit);
  return withPlace([pen, `${lengthText(length, unit)} ${unit} long`, polarity(item)], betweenWords(from, to, unit), unit);
}

/** @param {Stroke} item @param {string} noun @param {Shape | undefined} shape @param {Unit} unit */
function arcWords(item, noun, shape, unit) {
  const [arc] = item.ways, { centre, from, to, isClockwise } = arc;
  if (!centre) return noun;
  const radius = `${lengthText(distance(from, centre), unit)} ${unit}`, about = `about ${placeText(centre, unit)}`;
  const pen = penWords(noun === "arc" ? "draw" : noun, shape, item.turn, unit), long = `${lengthText(lengthOf(item.ways), unit)} ${unit} long`;
  if (isCircle(arc)) return [`${pen} along a circle of radius ${radius} ${about}`, long, polarity(item)].filter((part) => part).join(", ");
  const way = `${pen} along an arc of radius ${radius}, ${isClockwise ? "clockwise" : "counterclockwise"} ${about}`;
  return withPlace([way, long, polarity(item)], betweenWords(from, to, unit), unit);
}

/** @param {import("./paths.js").Region} item @param {Unit} unit */
function regionWords(item, unit) {
  const { ways } = item, [way] = ways, box = boxOf(ways), corners = cornersOf(ways).length, arcs = ways.filter(({ centre }) => centre).length;
  if (!box) return "region";
  if (ways.length === 1 && way && isCircle(way) && way.centre) {
    const { nm, isExact } = distance(way.from, way.centre);
    return withPlace([`region, circle ${lengthText({ nm: 2 * nm, isExact }, unit)} ${unit}`, polarity(item)],
      `at ${placeText(way.centre, unit)}`, unit);
  }
  const { width, height } = sidesOf(box);
  const what = `region with ${counted(corners, "corner")}${arcs ? ` and ${counted(arcs, "arc")}` : ""}`;
  return withPlace([what, sidesText(width, height, unit), polarity(item)], boxText(box, unit), unit);
}

/** @param {ToldLayer} layer @param {number | null} number */
function platedWords(layer, number) {
  const isPlated = layer.isPlated(number);
  return isPlated === null ? "" : isPlated ? "plated" : "not plated";
}

/** @param {Drilled} item @param {Shape | undefined} shape @param {ToldLayer} layer @param {Unit} unit */
function holeWords({ points, ways, number }, shape, layer, unit) {
  const [from] = points, to = points.at(-1) ?? from, diameter = shape?.width?.nm, plated = platedWords(layer, number);
  const size = diameter === undefined ? "" : ` ${sizeText(diameter, unit)} ${unit}`, wide = size && `${size} wide`;
  if (points.length === 1) return withPlace([`hole${size}`, plated], `at ${placeText(from, unit)}`, unit);
  const { nm, isExact } = lengthOf(ways), isSlot = points.length === 2;
  if (isSlot && diameter !== undefined) {
    return withPlace([`slot${wide}`, `${lengthText({ nm: nm + diameter, isExact }, unit)} ${unit} long over all`, plated],
      betweenWords(from, to, unit), unit);
  }
  const long = `${lengthText({ nm, isExact }, unit)} ${unit} from ${isSlot ? "end to end" : `end to end over ${points.length} points`}`;
  return withPlace([`${isSlot ? "slot" : "rout"}${wide}`, long, plated], betweenWords(from, to, unit), unit);
}

// A hole or a slot of a layer of holes that is a Gerber file.
/** @param {ToldLayer} layer @param {Item} item @param {Shape | undefined} shape */
const isSlot = (layer, item, shape) => layer.group === "holes" && item.isDark && shape?.kind === "circle";

/** @param {Stroke} item @returns {Drilled} */
function endsAlone({ number, ways }) {
  const [{ from, to }] = ways;
  return { number, ways, points: from[0] === to[0] && from[1] === to[1] ? [from] : [from, to] };
}

/** @param {import("./paths.js").Repeated} item @param {Unit} unit */
function repeatWords({ repeat }, unit) {
  const { columns, rows, stepX, stepY, objects } = repeat;
  const steps = [columns > 1 ? `${sizeText(stepX, unit)} ${unit} to the right` : "", rows > 1 ? `${sizeText(stepY, unit)} ${unit} up` : ""];
  return `repeat of ${counted(objects, "object")}, ${counted(columns, "column")} and ${counted(rows, "row")}, at steps of ${
    steps.filter((step) => step).join(" and ")}`;
}

/**
 * What an item is, how large and where.
 * @param {ToldLayer} layer
 * @param {string} line its words, as the station has them
 * @param {readonly Attribute[]} attributes
 * @param {Unit} unit
 * @returns {string} nothing where the words are none of an item
 */
export function headOf(layer, line, attributes, unit) {
  const item = itemOf(line);
  if (!item) return "";
  const shape = item.number === null ? undefined : layer.shapes.get(item.number), noun = nounOf(layer, item, attributes);
  switch (item.kind) {
    case "flash": return flashWords(item, noun, shape, layer, unit);
    case "draw": return isSlot(layer, item, shape) ? holeWords(endsAlone(item), shape, layer, unit) : drawWords(item, noun, shape, unit);
    case "arc": return arcWords(item, noun, shape, unit);
    case "region": return regionWords(item, unit);
    case "repeat": return repeatWords(item, unit);
    default: return holeWords(item, shape, layer, unit);
  }
}

/** @param {ToldLayer} layer @param {Item} item @param {Unit} unit @returns {import("./attributes.js").Row[]} */
function apertureRows(layer, { number, kind }, unit) {
  const shape = number === null ? undefined : layer.shapes.get(number);
  if (number === null) return [];
  const name = layer.says?.macros.get(number), words = shape ? shapeWords(shape, unit, { name }) : "";
  const radius = shape?.radius ? `corners of radius ${lengthText(shape.radius, unit)} ${unit}` : "";
  const isTool = kind === "hit" || kind === "rout", label = isTool ? "tool" : shape?.kind === "block" ? "block" : "aperture";
  return [[label, [`${isTool ? "T" : "D"}${number}`, words, radius].filter((part) => part).join(", ")]];
}

/**
 * An item in words.
 * @param {ToldLayer} layer
 * @param {number} place its place in the layer's list
 * @param {Context} context
 * @returns {Told | null} null where no item is there
 */
export function itemWords(layer, place, { unit, components = new Map() }) {
  const found = layer.items[place], item = found && itemOf(found.words);
  if (!found || !item) return null;
  const { attributes, objects } = layer.said[place] ?? { attributes: [], objects: [] };
  const ofAperture = item.kind === "region" ? attributes : layer.ofAperture(item.number), does = functionWords(ofAperture);
  /** @type {import("./attributes.js").Row[]} */
  const rows = attributeRows(attributes, components);
  if (does) rows.push(["function", does]);
  rows.push(...apertureRows(layer, item, unit));
  const [object] = found.objects;
  if (object !== undefined && found.objects.length === 1) rows.push(["object", headOf(layer, object, objects[0]?.attributes ?? [], unit)]);
  rows.push(["layer", layer.label]);
  return { head: headOf(layer, found.words, attributes, unit), rows, line: found.words };
}

const DEFINITIONS = new Set(["aperture", "block", "tool"]);

/**
 * The same as one sentence, without the number of its aperture or tool.
 * @param {Told} told
 * @returns {string}
 */
export function sentenceOf({ head, rows }) {
  return [head, ...rows.filter(([name]) => !DEFINITIONS.has(name)).map(([name, value]) => `${name} ${value}`)].join("; ");
}
