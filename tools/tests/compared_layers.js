// Layers in canonical texts, made of items, for tests of comparisons; and how two of them are compared.

import { Compared } from "../../web/compare/layers.js";

const encoder = new TextEncoder();
const HEAD = ["%FSLAX46Y46*%", "%MOMM*%"];
/** @type {Record<string, string>} */
const MODES = { cw: "G02*", ccw: "G03*", l: "G01*" };

/**
 * What a layer is made of: apertures by their numbers, as `C,0.500000`, and items in the words of `insert`.
 * @typedef {{apertures: Map<number, string>, items: string[], attributes?: string[]}} Made
 */

// The text of items, with the settings that change.
class Written {
  constructor() {
    this.lines = [];
    this.held = { polarity: "dark", mirror: "r", turn: "0", aperture: "", mode: "l" };
  }

  /** @param {string} name @param {string} value @param {string} line */
  set(name, value, line) {
    if (this.held[name] !== value) this.lines.push(line);
    this.held[name] = value;
  }

  polarity(value) {
    this.set("polarity", value, value === "clear" ? "%LPC*%" : "%LPD*%");
  }

  turn(word) {
    this.set("mirror", word[0], word[0] === "m" ? "%LMX*%" : "%LMN*%");
    this.set("turn", word.slice(1), `%LR${word.slice(1)}*%`);
  }

  /** @param {string} item */
  add(item) {
    const [kind, number, ...words] = item.split(" ");
    if (kind === "region") return this.region(number, words);
    this.polarity(words[words.length - 1]);
    if (kind !== "arc") this.turn(words[words.length - 2]);
    this.set("aperture", number, `D${number}*`);
    const [x, y, ex, ey, cx, cy, direction] = words;
    if (kind === "flash") return this.lines.push(`X${x}Y${y}D03*`);
    const mode = kind === "arc" ? direction : "l", more = kind === "arc" ? `I${Number(cx) - Number(x)}J${Number(cy) - Number(y)}` : "";
    this.set("mode", mode, MODES[mode]);
    return this.lines.push(`X${x}Y${y}D02*`, `X${ex}Y${ey}${more}D01*`);
  }

  /** @param {string} polarity @param {string[]} words */
  region(polarity, words) {
    this.polarity(polarity);
    this.lines.push("G36*", `X${words[0]}Y${words[1]}D02*`);
    for (let at = 2, [x, y] = words; at < words.length;) {
      const kind = words[at], [ex, ey, cx, cy] = words.slice(at + 1);
      this.set("mode", kind, MODES[kind]);
      this.lines.push(`X${ex}Y${ey}${kind === "l" ? "" : `I${Number(cx) - Number(x)}J${Number(cy) - Number(y)}`}D01*`);
      [x, y] = [ex, ey];
      at += kind === "l" ? 3 : 5;
    }
    this.lines.push("G37*");
  }
}

/**
 * The canonical text of a layer.
 * @param {Made} made
 */
export function gerberText({ apertures, items, attributes = [] }) {
  const written = new Written();
  for (const item of items) written.add(item);
  return [...HEAD, ...attributes.map((value) => `%TF${value}*%`), "G01*", "G75*",
    ...[...apertures].map(([number, shape]) => `%ADD${number}${shape}*%`), ...written.lines, "M02*", ""].join("\n");
}

const mm = (nm) => (Number(nm) / 1e6).toFixed(6);

/**
 * The canonical text of a drill layer.
 * @param {{tools: Map<number, string>, items: string[]}} made
 */
export function drillText({ tools, items }) {
  const lines = ["M48", "METRIC", ...[...tools].map(([number, diameter]) => `T${number}C${diameter}`), "%", "G05"];
  let held = "";
  for (const item of items) {
    const [kind, tool, ...points] = item.split(" ");
    if (tool !== held) lines.push(`T${held = tool}`);
    const places = points.flatMap((x, at) => (at % 2 ? [] : [`X${mm(x)}Y${mm(points[at + 1])}`]));
    if (kind === "hit") lines.push(places[0]);
    else lines.push(`G00${places[0]}`, "M15", ...places.slice(1).map((place) => `G01${place}`), "M16");
  }
  return [...lines, "M30", ""].join("\n");
}

/**
 * Two layers compared by their texts; `files` are the files that they come from, where these are not the texts.
 * @param {string} first
 * @param {string} second
 * @param {"gerber" | "drill"} kind
 * @param {string[]} files
 */
export function compared(first, second, kind = "gerber", files = [first, second]) {
  const [one, other] = [first, second].map((text, at) => ({ kind, text: encoder.encode(text), bytes: encoder.encode(files[at]) }));
  return new Compared(one, other);
}

/** What a comparison found of items, each in a word, in order. */
export function foundIn({ changes }) {
  return changes.map(({ what, parts }) => [what, ...parts].join(" ")).sort();
}

/** Numbers that look random, and are the same each time. */
export function randomFrom(seed) {
  let state = seed >>> 0;
  return (/** @type {number} */ below) => {
    state = (Math.imul(state, 1664525) + 1013904223) >>> 0;
    return Math.floor(state / 2 ** 32 * below);
  };
}
