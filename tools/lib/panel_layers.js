// A layer of a board as a panel has it: one repeat of a Gerber layer, the holes of each board in a drill file.

import { latin1, latin1Bytes } from "../../web/bytes/index.js";
import { GERBER, Reply, explain, shifted } from "../../web/board/index.js";
import { AskedLayer } from "./asked_layer.js";
import { Failure } from "./command.js";
import { mended } from "./mending.js";
import { meanings } from "./station.js";

/**
 * Where the boards of a panel stand: so many side by side and one above another, at steps in nm.
 * @typedef {{columns: number, rows: number, step: {x: number, y: number}}} Boards
 */

/** @typedef {import("../../web/board/index.js").Box} Box */

/** The diameter of the line of a rail, in nm. */
const LINE = 100_000;
const MILLION = 1_000_000;
/** The most items of a layer. */
const MOST_ITEMS = 1_000_000;

/**
 * How far each board stands from the first one, column by column, each from its first row up.
 * @param {Boards} boards
 */
export function shiftsOf({ columns, rows, step }) {
  return Array.from({ length: columns * rows }, (_, at) => ({ dx: Math.floor(at / rows) * step.x, dy: at % rows * step.y }));
}

/**
 * A length in mm, exactly.
 * @param {number} nm
 */
export function mmOf(nm) {
  const digits = String(Math.abs(nm)).padStart(7, "0");
  return `${nm < 0 ? "-" : ""}${digits.slice(0, -6)}.${digits.slice(-6)}`;
}

// A layer with a line applied, which is accepted or the panel is not made.
/** @param {AskedLayer} layer @param {string} line @param {string} what */
function apply(layer, line, what) {
  if (layer.run(line)) return;
  const reply = new Reply(1, line, latin1(layer.station.reply).trimEnd().split(" "));
  throw new Failure(`${what}: ${explain(reply, meanings())}`);
}

// No repeat stands in another one: those of the layer are written out, copy by copy, in their order.
/** @param {AskedLayer} layer @param {string} name */
function withoutRepeats(layer, name) {
  const repeats = [...layer.itemsWithObjects()].filter(({ words }) => words.startsWith("repeat "));
  for (const { place, words, objects } of repeats.reverse()) {
    const [columns = 0, rows = 0, x = 0, y = 0] = words.split(" ").slice(1).map(Number), what = `${name}: the repeat at place ${place} is written out`;
    apply(layer, `delete it ${place}`, what);
    const copies = shiftsOf({ columns, rows, step: { x, y } }).flatMap(({ dx, dy }) => objects.map((object) => shifted(object, dx, dy)));
    for (const [at, copy] of copies.entries()) apply(layer, `insert it ${place + at} ${copy}`, what);
  }
  return repeats.length;
}

// The attributes of the file in comments, as KiCad can write them: `G04 #@! TF.FileFunction,Copper,L1,Top*`.
/** @param {string} text @returns {{key: string, fields: string | undefined}[]} */
function inComments(text) {
  return [...text.matchAll(/^(?:G04 ?|;) ?#@! TF(\.[^,*\r\n]+)(?:,([^*\r\n]*))?/gm)].map(([, key = "", fields]) => ({ key, fields }));
}

// What the file says of itself, as it holds for the panel.
/** @param {AskedLayer} layer @param {string} text */
function withAttributes(layer, text) {
  const known = new Set(layer.ask("attributes").map((line) => line.split(",")[0]));
  for (const { key, fields } of inComments(text)) if (!known.has(key)) layer.run(`setattr it ${key} ${fields ?? ""}`);
  for (const line of layer.ask("attributes")) {
    const [key] = line.split(",");
    if (key === ".Part") layer.run("setattr it .Part Array");
    if (key === ".MD5") layer.run("dropattr it .MD5");
  }
}

// The place of the first line after the dictionary, and the greatest number in it.
/** @param {string[]} lines */
function dictionaryOf(lines) {
  let at = lines.indexOf("G75*") + 1, most = 9;
  for (let line = lines[at] ?? ""; /^%A[MDB]/.test(line); line = lines[++at] ?? "") {
    most = Math.max(most, Number(/^%A(?:DD|BD)(\d+)/.exec(line)?.[1] ?? 0));
    const end = line.startsWith("%AM") ? "%" : line.startsWith("%AB") ? "%AB*%" : null;
    if (end !== null) at = lines.indexOf(end, at);
  }
  return { end: at, most };
}

// What a panel may be too large for, by the refusals of its layers.
const TOO_LARGE = new Map([[23, "the panel would reach 1 m or more from (0, 0): fewer boards, or smaller steps"],
  [25, "all boards would have more than 4,000,000 objects: fewer boards"]]);

// A layer of the panel, or why it is none.
/** @param {"gerber" | "drill"} kind @param {Uint8Array} bytes @param {string} name */
function loaded(kind, bytes, name) {
  const layer = new AskedLayer(kind, bytes);
  if (layer.isLoaded) return layer;
  const reply = new Reply(1, `load it ${kind} file`, layer.reply.split(" "));
  throw new Failure(`${name}: ${TOO_LARGE.get(reply.refusal) ?? "the panel's layer is not loaded"}: ${explain(reply, meanings())}`);
}

// The four sides of a frame, inserted after all other items.
/** @param {AskedLayer} panel @param {number} pen @param {Box} frame @param {string} name */
function drawFrame(panel, pen, { left, low, right, high }, name) {
  const sides = [[left, low, right, low], [right, low, right, high], [right, high, left, high], [left, high, left, low]];
  const draws = sides.map((side) => `draw ${pen} ${side.join(" ")} r0 dark`);
  for (const [at, words] of draws.entries()) apply(panel, `insert it ${panel.count + at} ${words}`, `${name}: the rail`);
}

/**
 * The Gerber layer of a panel.
 * @param {AskedLayer} layer without repeats
 * @param {string} name what it is called
 * @param {Boards} boards
 * @param {Box | null} frame drawn around the boards
 */
function gerberOf(layer, name, { columns, rows, step }, frame) {
  const lines = latin1(layer.text()).trimEnd().split("\n"), { end, most } = dictionaryOf(lines), pen = most + 1;
  const isRepeated = layer.count > 0 && columns * rows > 1, body = lines.slice(end, -1);
  const text = [...lines.slice(0, end), ...(frame ? [`%ADD${pen}C,${mmOf(LINE)}*%`] : []),
    ...(isRepeated ? [`%SRX${columns}Y${rows}I${mmOf(step.x)}J${mmOf(step.y)}*%`, ...body, "%SR*%"] : body), "M02*", ""];
  const panel = loaded(GERBER, latin1Bytes(text.join("\n")), name);
  if (frame) drawFrame(panel, pen, frame, name);
  return panel;
}

/**
 * A layer of nothing but the rail of a panel, with what its file says of itself.
 * @param {Box} frame
 * @param {string} name
 */
export function railLayer(frame, name) {
  const empty = ["%FSLAX46Y46*%", "%MOMM*%", "%TF.FileFunction,Profile,NP*%", "%TF.Part,Array*%", "G01*", "G75*", "M02*", ""];
  const none = { columns: 1, rows: 1, step: { x: 0, y: 0 } };
  return gerberOf(loaded(GERBER, latin1Bytes(empty.join("\n")), name), name, none, frame);
}

/** @param {string} text */
const nmOf = (text) => Math.round(Number(text) * MILLION);

// A line of a drill file for a board that stands so far from the first.
/** @param {string} line @param {{dx: number, dy: number}} shift */
function movedLine(line, { dx, dy }) {
  return line.replace(/X(-?[\d.]+)Y(-?[\d.]+)/, (_, x, y) => `X${mmOf(nmOf(x) + dx)}Y${mmOf(nmOf(y) + dy)}`);
}

/**
 * The drill file of a panel: the holes of a tool for each board, before those of the next tool.
 * @param {AskedLayer} layer
 * @param {string} source the text of its file
 * @param {string} name
 * @param {Boards} boards
 */
function drillOf(layer, source, name, boards) {
  const shifts = shiftsOf(boards), count = layer.count * shifts.length;
  if (count > MOST_ITEMS) throw new Failure(`${name}: ${count} holes are more than the ${MOST_ITEMS} that a layer may have: fewer boards`);
  const lines = latin1(layer.text()).trimEnd().split("\n"), start = lines.indexOf("G05", lines.indexOf("%")) + 1;
  /** @param {{key: string, fields: string | undefined}} found */
  const attributeOf = ({ key, fields }) => (fields === undefined ? key : `${key},${key === ".Part" ? "Array" : fields}`);
  const said = inComments(source).map((found) => `; #@! TF${attributeOf(found)}`);
  /** @type {{tool: string, holes: string[]}[]} */
  const tools = [];
  for (const line of lines.slice(start, -1)) {
    const last = tools.at(-1);
    if (!last || /^T\d/.test(line)) tools.push({ tool: line, holes: [] });
    else last.holes.push(line);
  }
  const body = tools.flatMap(({ tool, holes }) => [tool, ...shifts.flatMap((shift) => holes.map((line) => movedLine(line, shift)))]);
  return latin1Bytes([lines[0], ...said, ...lines.slice(1, start), ...body, "M30", ""].join("\n"));
}

/**
 * A layer of a board, ready to be repeated.
 * @param {"gerber" | "drill"} kind
 * @param {Uint8Array} bytes its file
 * @param {string} name
 * @returns {{layer: AskedLayer, repeats: number}} and how many repeats of its own were written out
 */
export function boardLayer(kind, bytes, name) {
  const layer = new AskedLayer(kind, bytes);
  if (!layer.isLoaded) {
    const reply = new Reply(1, `load it ${kind} file`, layer.reply.split(" "));
    const way = mended(kind, bytes, name);
    throw new Failure(`${name}: ${explain(reply, meanings(), bytes)}${way === null ? "" : `; ${way}`}`);
  }
  if (kind !== GERBER) return { layer, repeats: 0 };
  const repeats = withoutRepeats(layer, name);
  withAttributes(layer, latin1(bytes));
  // as it is after the edits
  return { layer: new AskedLayer(kind, layer.text()), repeats };
}

/**
 * The same layer of a panel.
 * @param {"gerber" | "drill"} kind
 * @param {AskedLayer} layer
 * @param {Uint8Array} bytes its file
 * @param {string} name
 * @param {Boards} boards
 * @param {Box | null} frame
 * @returns {{layer: AskedLayer, text: Uint8Array}}
 */
export function panelLayer(kind, layer, bytes, name, boards, frame) {
  const text = kind === GERBER ? gerberOf(layer, name, boards, frame).text() : drillOf(layer, latin1(bytes), name, boards);
  return { layer: loaded(kind, text, name), text };
}
