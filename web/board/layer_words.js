// What people call layers that the table of functions has no label for: drawings and others, by the fields of their attribute or by
// the words of their file's name.

/** The first fields of `.FileFunction` (Gerber Layer Format Specification, "File functions") that are no words of people. */
const NAMES = new Map(Object.entries({
  ArrayDrawing: "array drawing", AssemblyDrawing: "assembly drawing", FabricationDrawing: "fabrication drawing", OtherDrawing: "drawing",
  Drillmap: "drill map", Component: "components", Carbonmask: "carbon mask", Goldmask: "gold mask", Heatsinkmask: "heat sink mask",
  Peelablemask: "peelable mask", Silvermask: "silver mask", Tinmask: "tin mask", Depthrout: "depth routing", Vcut: "V-cut", Vcutmap: "V-cut map",
  Viafill: "via fill", Pads: "pads", "Keep-out": "keep-out", Keepout: "keep-out", Soldermask: "solder mask", Legend: "silkscreen", Top: "top",
  Bot: "bottom", Inr: "inner", Other: "other",
}));
const LAYER = /^L\d+$/;
const MOST_LETTERS = 80;

// A field in small letters, with a space where a capital letter begins a word; what is in capitals stays so.
/** @param {string} field */
function plainWords(field) {
  return NAMES.get(field) ?? field.replace(/([a-z])(?=[A-Z])/g, "$1 ").split(" ").map((word) => (/[a-z]/.test(word) ? word.toLowerCase() : word)).join(" ");
}

/**
 * A function as people call it: `AssemblyDrawing,Top` is the assembly drawing, top.
 * @param {readonly string[]} fields of the attribute
 * @returns {string}
 */
export function functionWords([first = "", ...more]) {
  // What is nothing but another one is called by what it says next.
  const isOther = first === "Other" && more.some((field) => field), rest = more.filter((field) => field && !LAYER.test(field));
  const words = (isOther ? rest : [first, ...rest]).map(plainWords).join(", ") || "other";
  return words.length > MOST_LETTERS ? `${words.slice(0, MOST_LETTERS).replace(/\s+\S*$/, "")} ..` : words;
}

/** @type {[RegExp, string][]} */
const DRAWINGS = [
  [/ (?:drl|drill) ?(?:map|drawing) /, "drill map"], [/ (?:fab|fabrication) /, "fabrication drawing"], [/ (?:courtyard|crt ?yd) /, "courtyard"],
  [/ assembly /, "assembly drawing"], [/ (?:cmts|comments?) /, "comments"], [/ margin /, "margin"], [/ eco ?1 /, "ECO 1"], [/ eco ?2 /, "ECO 2"],
  [/ (?:dimensions?) /, "dimensions"], [/ notes /, "notes"], [/ frame /, "frame"],
];

/**
 * What a drawing is called by the words of its file's name.
 * @param {string} words in small letters, each between spaces
 * @param {string | null} side
 * @returns {string | null} null where they do not say it
 */
export function drawingWords(words, side) {
  const found = DRAWINGS.find(([pattern]) => pattern.test(words));
  return found ? [found[1], ...side ? [side] : []].join(", ") : null;
}
