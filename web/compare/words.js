// A comparison in words for people.

import { named, plainText } from "../attributes/index.js";
import { counted, mm, placeWords } from "../nets/index.js";

const NAMES = new Map([["C", "circle"], ["R", "rectangle"], ["O", "obround"]]);
/** @type {(text: string) => string} */
const short = (text) => mm(Math.round(Number(text) * 1e6));

/**
 * What an aperture, a block or a tool is.
 * @param {string} text as canonical.js has it
 * @returns {string}
 */
export function shapeWords(text) {
  if (text[0] === "T") return `tool of ${short(text.slice(1))}`;
  if (text[0] === "M") return "shape of primitives";
  if (text[0] === "B") return `block of ${counted(text.split("\n").length - 1, "object")}`;
  const [template = "", sizes = ""] = text.split(","), [width = "", ...more] = sizes.split("X"), isCircle = template === "C";
  const hole = more[isCircle ? 0 : 1], sides = isCircle ? short(width) : `${short(width)} by ${short(more[0] ?? "")}`;
  return `${NAMES.get(template) ?? template} of ${sides}${hole === undefined ? "" : ` with a hole of ${short(hole)}`}`;
}

/**
 * An item in a few words, with its first place.
 * @param {string} item
 * @param {import("./canonical.js").Shapes} shapes
 */
export function itemWords(item, shapes) {
  const [head = ""] = item.split("\n"), words = head.split(" "), [kind] = words, shape = shapeWords(shapes.texts[Number(words[1])] ?? "C,0");
  const at = (/** @type {number} */ first) => placeWords({ x: Number(words[first]), y: Number(words[first + 1]) });
  const clear = item.endsWith(" clear") || item.startsWith("region clear") ? "clear " : "";
  switch (kind) {
    case "hit": return `hole, ${shape}, at ${at(2)}`;
    case "rout": return `slot, ${shape}, from ${at(2)} to ${at(words.length - 2)}`;
    case "flash": return `${clear}flash, ${shape}, at ${at(2)}`;
    case "draw": return `${clear}draw, ${shape}, from ${at(2)} to ${at(4)}`;
    case "arc": return `${clear}arc, ${shape}, from ${at(2)} to ${at(4)}`;
    case "region": return `${clear}region that begins at ${at(2)}`;
    default: return `repeat of ${words[1]} by ${words[2]}`;
  }
}

/**
 * What a file says of an item: the net, the component and the pin.
 * @param {readonly import("../attributes/index.js").Attribute[]} attributes
 */
export function attributeWords(attributes) {
  const field = (/** @type {string} */ name, place = 0) => plainText(named(attributes, name)?.fields[place] ?? "");
  const pin = field(".P") ? `${field(".P")} pin ${field(".P", 1)}` : field(".C");
  return [pin, field(".N") && `net ${field(".N")}`].filter((part) => part).join(", ");
}

/**
 * A change in a line: what it was, and what became of it.
 * @param {import("./changes.js").Change} change
 * @param {import("./layers.js").Compared} compared
 * @returns {string}
 */
export function changeWords({ what, from, to, parts, dx, dy }, { first, second, shapes }) {
  /** @param {readonly string[]} items @param {number | null} place */
  const wordsAt = (items, place) => {
    const item = items[place ?? -1];
    return item === undefined ? "" : itemWords(item, shapes);
  };
  const one = wordsAt(first.items, from), other = wordsAt(second.items, to);
  switch (what) {
    case "came": return `came: ${other}`;
    case "went": return `went: ${one}`;
    case "moved": return `moved by ${placeWords({ x: dx, y: dy })} mm: ${one}`;
    case "reordered": return `in another order among what it reaches into: ${one}`;
    default: return `another ${parts.join(", another ")}: ${one}; now ${other}`;
  }
}

/** @type {(text: string | null) => string} */
const quoted = (text) => (text === null ? "nothing" : JSON.stringify(text.length > 80 ? `${text.slice(0, 80)} ..` : text));

/**
 * What two files say differently, in a line.
 * @param {import("./attributes.js").Said} said
 */
export function saidWords({ name, of, first, second, count }) {
  if (of === "comment") return `${counted(count, "comment")}: ${quoted(first)}, now ${quoted(second)}`;
  const more = of === "items" ? ` of ${counted(count, "item")}` : "";
  return `${name}${more}: ${quoted(first)}, now ${quoted(second)}`;
}

/**
 * A place in a line.
 * @param {import("./places.js").Place} place
 */
export function placeLine({ box, onlyFirst, onlySecond }) {
  const centre = { x: (box.left + box.right) / 2, y: (box.low + box.high) / 2 };
  const pixels = onlyFirst + onlySecond ? `; ${counted(onlyFirst, "pixel")} only in A, ${onlySecond} only in B` : "; too small for a pixel";
  return `at ${placeWords(centre)}, ${mm(box.right - box.left)} by ${mm(box.high - box.low)} mm${pixels}`;
}
