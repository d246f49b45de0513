// What a file shows by its name, as KiCad, Altium (Protel), EAGLE, Fritzing, and gEDA or pcb-rnd give it.

import { inner, labelled, plain } from "./layer_functions.js";
import { drawingWords } from "./layer_words.js";

// Extensions that say what a file shows: Protel's, which Altium, KiCad and Fritzing use too, EAGLE's old ones, OrCAD's.
const EXTENSIONS = new Map(Object.entries({
  gtl: "top", gbl: "bottom", gts: "top-mask", gbs: "bottom-mask", gto: "top-silk", gbo: "bottom-silk",
  gtp: "top-paste", gbp: "bottom-paste", gta: "top-glue", gba: "bottom-glue",
  gko: "outline", gm1: "outline", gml: "outline", oln: "outline", gm: "outline", dim: "outline",
  gpt: "other", gpb: "other", gd1: "drawing", gg1: "drawing", gdd: "drawing", gdl: "drawing",
  cmp: "top", sol: "bottom", plc: "top-silk", pls: "bottom-silk", stc: "top-mask", sts: "bottom-mask",
  crc: "top-paste", crs: "bottom-paste",
  top: "top", bot: "bottom", smt: "top-mask", smb: "bottom-mask", sst: "top-silk", ssb: "bottom-silk",
  spt: "top-paste", spb: "bottom-paste", ast: "drawing", asb: "drawing",
  drd: "holes", drl: "holes", xln: "holes", exc: "holes", ncd: "holes", cnc: "holes", tap: "holes",
  xnc: "holes", nc: "holes",
}));
// Extensions of Gerber files that do not say what they show.
const GERBER_EXTENSIONS = ["gbr", "ger", "grb", "gbx", "pho", "art"];
const MECHANICAL = /^gm\d+$/;
const INNER_EXTENSION = /^(?:g|gp|gl|gi|in|ly)(\d+)l?$/;

// Words of names, the first that stands decides. A name's words are in lower case, with a space between any two, and
// a change to an upper case letter (copperTop) begins a word.
const SIDES = new Map(Object.entries({
  f: "top", front: "top", top: "top", primary: "top",
  b: "bottom", back: "bottom", bottom: "bottom", bot: "bottom", secondary: "bottom",
}));
// The older words, of which "solder" is in "solder mask" too.
const OLDER_SIDES = new Map(Object.entries({ component: "top", solder: "bottom" }));
/** @type {[pattern: string, name: string, onSide?: "on a side"][]} */
const NAMED = [
  ["(drill|drl) ?map|drill ?drawing", "drawing"],
  ["n ?pth|non ?plated|un ?plated", "nonplated"],
  ["pth|plated", "plated"],
  ["fab|fabrication|courtyard|crt ?yd|assembly|dwgs|drawings?|cmts|comments?|"
    + "eco\\d?|margin|user|dimensions?|document|notes|frame", "drawing"],
  ["edge|edges|edge cuts|outline|board ?outline|profile|contour|dimension|mill|milling|keepout", "outline"],
  ["drill|drills|holes|through ?hole", "holes"],
  ["(solder )?(paste|cream|solderpaste|paste ?mask)", "paste", "on a side"],
  ["(solder ?)?(mask|resist|soldermask)|stop ?mask", "mask", "on a side"],
  ["silk|silks|silk ?screen|legend|overlay|placement", "silk", "on a side"],
  ["adhes|adhesive|glue", "glue", "on a side"],
];
const WORDS = NAMED.map(([pattern, name, onSide]) => ({ pattern: new RegExp(` (?:${pattern}) `), name, isOnSide: onSide !== undefined }));
const INNER_WORD = / (?:in|inner|mid|int|internal|mid ?layer) ?(\d+) /;
const INNER_LAYER = / (?:inner )?(?:l|layer) (\d+) /;

/**
 * A file's name cut at its last point, where that is neither its first byte nor its last.
 * @param {string} name a name without folders
 * @returns {{stem: string, ending: string}} the ending in small letters, without the point; empty where there is none
 */
export function nameParts(name) {
  const at = name.lastIndexOf(".");
  if (at <= 0 || at === name.length - 1) return { stem: name, ending: "" };
  return { stem: name.slice(0, at), ending: name.slice(at + 1).toLowerCase() };
}

/**
 * @param {string} ending as `nameParts` gives it
 * @returns {boolean} whether files of layers have this ending
 */
export function isOfLayers(ending) {
  return EXTENSIONS.has(ending) || GERBER_EXTENSIONS.includes(ending);
}

/** @param {string} stem */
function wordsOf(stem) {
  const spaced = stem.replace(/([a-z])(?=[A-Z])/g, "$1 ")
    .replace(/(top|bottom|bot|front|back|component)(?=mask|silk|paste)/g, "$1 ");
  return ` ${(spaced.toLowerCase().match(/[a-z]+|\d+/g) ?? []).join(" ")} `;
}

/**
 * The last word that names a side: a project's own name comes first.
 * @param {string} words
 * @returns {string | null}
 */
function sideOf(words) {
  const parts = words.replace(/solder (?=mask|paste|resist)/g, "").split(" ");
  for (const names of [SIDES, OLDER_SIDES]) {
    const side = names.get(parts.filter((word) => names.has(word)).at(-1) ?? "");
    if (side) return side;
  }
  return null;
}

/**
 * What a drawing is called by its file's name; null where that does not say it.
 * @param {string} name
 */
export function drawingOf(name) {
  const words = wordsOf(nameParts(name).stem);
  return drawingWords(words, sideOf(words));
}

/**
 * What the file's extension says, else the words of its name.
 * @param {string} name the file's name, without folders
 * @returns {import("./layer_functions.js").LayerFunction | null}
 */
export function byName(name) {
  const { stem, ending } = nameParts(name);
  const words = wordsOf(stem);
  const byEnding = EXTENSIONS.get(ending);
  if (byEnding && byEnding !== "holes") return plain(byEnding);
  if (MECHANICAL.test(ending)) return labelled("drawing", `mechanical ${ending.slice(2)}`);
  const innerEnding = INNER_EXTENSION.exec(ending);
  if (innerEnding) return inner(Number(innerEnding[1]) - (ending.startsWith("ly") ? 1 : 0));
  const side = sideOf(words);
  const word = WORDS.find(({ pattern, isOnSide }) => pattern.test(words) && (side || !isOnSide));
  if (word) return plain(word.isOnSide ? `${side}-${word.name}` : word.name);
  if (byEnding) return plain("holes");
  const innerWord = INNER_WORD.exec(words);
  if (innerWord) return inner(Number(innerWord[1]));
  const layer = side === null && INNER_LAYER.exec(words);
  if (layer) return inner(Number(layer[1]) - 1);
  return side ? plain(side) : null;
}
