// The apertures, blocks and tools of a layer: what each is by its definition, and its words.

import { boxOfPrimitives, foundIn, primitiveOf, upright } from "./macro_shapes.js";
import { counted, exact, lengthText, sidesText, sizeText } from "./measures.js";
import { sidesOf } from "./paths.js";

/** @typedef {import("./measures.js").Length} Length */
/** @typedef {import("./measures.js").Unit} Unit */

/**
 * An aperture, a block or a tool. Of a circle and a tool both sides are the diameter, of a polygon that of the circle through its
 * corners.
 * @typedef {object} Shape
 * @property {"circle" | "rectangle" | "obround" | "round rectangle" | "polygon" | "primitives" | "block" | "tool" | "unknown"} kind
 * @property {number} number
 * @property {Length | null} width
 * @property {Length | null} height
 * @property {number} angle in degrees counterclockwise
 * @property {number} corners of a polygon
 * @property {Length | null} radius of the corners of a round rectangle
 * @property {number | null} hole its diameter, in nm
 * @property {number} parts how many primitives, or objects of a block
 * @property {string[]} objects the items of a block, in words
 */

/** @param {Shape["kind"]} kind @param {number} number @param {Partial<Shape>} more @returns {Shape} */
const shape = (kind, number, more = {}) => ({ kind, number, width: null, height: null, angle: 0, corners: 0, radius: null, hole: null,
  parts: 0, objects: [], ...more });

/** @param {string | undefined} text */
const nm = (text) => Math.round(Number(text) * 1e6);

const HEAD = /^(aperture|block|tool) (\d+)/;
const STANDARD = /^%ADD\d+([CROP]),([-+.\dX]*)\*%$/;
const TOOL = /^T\d+C([.\d]+)$/;
/** @type {Map<string, "circle" | "rectangle" | "obround">} */
const NAMES = new Map([["C", "circle"], ["R", "rectangle"], ["O", "obround"]]);
/** How many parameters stand before the hole. */
const HOLE_AT = new Map([["C", 1], ["R", 2], ["O", 2], ["P", 3]]);

/** @param {number} number @param {string} template @param {string[]} parameters @returns {Shape} */
function standard(number, template, parameters) {
  const sizes = parameters.map(nm), [size = NaN, other = NaN] = sizes, width = exact(size);
  const bore = sizes[HOLE_AT.get(template) ?? 0] ?? 0, hole = bore > 0 ? bore : null;
  if (template === "P") {
    const corners = Number(parameters[1]), step = 360 / corners, angle = Number(parameters[2] ?? 0);
    return shape("polygon", number, { width, height: width, corners, angle: ((angle % step) + step) % step, hole });
  }
  return shape(NAMES.get(template) ?? "unknown", number, { width, height: template === "C" ? width : exact(other), hole });
}

/** @param {number} number @param {string[]} lines @returns {Shape} */
function ofPrimitives(number, lines) {
  const list = lines.map(primitiveOf);
  /** @type {import("./macro_shapes.js").Primitive[]} */
  const primitives = list.flatMap((primitive) => primitive ?? []);
  const last = primitives.at(-1), before = primitives.slice(0, -1);
  if (!last || primitives.length < list.length) return shape("unknown", number);
  const hasHole = !last.isOn && last.kind === "disc" && last.points[0].every((each) => each === 0);
  const body = hasHole ? before : primitives, found = body.length && body.every(({ isOn }) => isOn) ? foundIn(body) : null;
  if (found) return shape(found.kind, number, { ...found, hole: hasHole ? last.width : null });
  const box = boxOfPrimitives(primitives), parts = primitives.length;
  return shape("primitives", number, box ? { parts, ...sidesOf(box) } : { parts });
}

/** @param {string} kind @param {number} number @param {string[]} lines @returns {Shape} */
function shapeOf(kind, number, lines) {
  if (kind === "block") {
    const objects = lines.filter((line) => line.startsWith(" ")).map((line) => line.trim());
    return shape("block", number, { objects, parts: objects.length });
  }
  if (kind === "tool") {
    const diameter = exact(nm(TOOL.exec(lines[0] ?? "")?.[1]));
    return Number.isFinite(diameter.nm) ? shape("tool", number, { width: diameter, height: diameter }) : shape("unknown", number);
  }
  const [, template, parameters = ""] = STANDARD.exec(lines[0] ?? "") ?? [];
  if (template) return standard(number, template, parameters.split("X"));
  return ofPrimitives(number, lines.filter((line) => /^\d/.test(line)));
}

/**
 * The apertures and blocks, or tools, of a layer by their numbers.
 * @param {readonly string[]} lines the answer to `entries NAME`: below each line of one stands its definition
 * @returns {Map<number, Shape>}
 */
export function shapesOf(lines) {
  /** @type {{kind: string, number: number, below: string[]}[]} */
  const heads = [];
  for (const line of lines) {
    const [, kind, number] = HEAD.exec(line) ?? [];
    if (kind) heads.push({ kind, number: Number(number), below: [] });
    else heads.at(-1)?.below.push(line);
  }
  return new Map(heads.map(({ kind, number, below }) => [number, shapeOf(kind, number, below)]));
}

// As it lies once a flash has mirrored and turned it.
/** @param {Shape} shape @param {string} turn @returns {Shape} */
function lying(shape, turn) {
  const angle = (turn.startsWith("m") ? -shape.angle : shape.angle) + Number(turn.slice(1));
  if (shape.kind === "circle" || !shape.width || !shape.height) return shape;
  if (shape.kind !== "polygon") return upright({ ...shape, width: shape.width, height: shape.height, angle });
  // A polygon's first corner lies to the right, where it is not turned; a mirror brings it to the left.
  const step = 360 / shape.corners, start = turn.startsWith("m") ? angle + 180 : angle;
  return { ...shape, angle: ((start % step) + step) % step };
}

/** @param {number} angle @param {number} whole of which a turn leaves the shape as it is */
function turnWords(angle, whole) {
  const text = String(Number(angle.toFixed(2)));
  return text === "0" || text === String(Number(whole.toFixed(2))) ? "" : `, turned by ${text}°`;
}

/** @param {Shape} shape @param {Unit} unit @param {string | undefined} name of its macro */
function bodyWords({ kind, width, height, angle, corners, parts }, unit, name) {
  if (kind === "block") return `block of ${counted(parts, "object")}`;
  if (kind === "unknown" || !width || !height) return name ?? (parts ? `shape of ${counted(parts, "primitive")}` : "");
  switch (kind) {
    case "tool": return `${sizeText(width.nm, unit)} ${unit}`;
    case "circle": return `circle ${sizeText(width.nm, unit)} ${unit}`;
    case "polygon":
      return `polygon of ${corners} corners on a circle of ${lengthText(width, unit)} ${unit}${turnWords(angle, 360 / corners)}`;
    case "primitives": return `${name ?? `shape of ${counted(parts, "primitive")}`}, ${sidesText(width, height, unit)}`;
    default: return `${kind} ${sidesText(width, height, unit)}${turnWords(angle, 90)}`;
  }
}

/**
 * The words of an aperture as it is flashed: `round rectangle 1.00 by 1.20 mm`; the width is across and the height up as it lies.
 * @param {Shape} shape
 * @param {Unit} unit
 * @param {{turn?: string, name?: string | undefined}} more the turn of the flash, and the name of the aperture's macro
 * @returns {string} nothing where nothing is known
 */
export function shapeWords(shape, unit, { turn = "r0", name } = {}) {
  const words = bodyWords(lying(shape, turn), unit, name);
  return words && shape.hole !== null ? `${words}, with a hole of ${sizeText(shape.hole, unit)} ${unit}` : words;
}
