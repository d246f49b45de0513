// The worker that compares two boards: a message is { call, kind, .. }, and its answer { call, answer } or { call, fault }. It has a
// station for each board, and none of the page's.

import { faultWords, unknown } from "./faults.js";
import { ComparedBoards } from "./compared_boards.js";
import { Side } from "./compared_side.js";
import { summaryWords } from "../compare/index.js";

/** @typedef {Worker.ComparingAnswered[keyof Worker.ComparingAnswered]} AnyAnswer */

/** @type {WebAssembly.Module | null} */
let compiled = null;
/** @type {Side[]} */
const sides = [];
/** @type {ComparedBoards | null} */
let boards = null;

/** @param {Worker.ComparingAsked["open"]} message */
async function open({ module }) {
  compiled = await WebAssembly.compile(module);
  return {};
}

/** @param {number} at */
function sideAt(at) {
  const side = sides[at];
  if (!side) throw new Error("there is no such board");
  return side;
}

function compared() {
  if (!boards) throw new Error("no boards are compared");
  return boards;
}

// A board by its files or by its lines; the layers that are refused, with their bytes, may be converted.
/** @param {Worker.ComparingAsked["side"]} message @returns {Promise<Worker.ComparingAnswered["side"]>} */
async function side({ at, files, board, depth = 1 }) {
  if (!compiled) throw new Error("no station can be opened yet");
  const made = new Side(compiled, files ? 1 : depth);
  sides[at] = made;
  if (files) made.openFiles(files);
  else if (board) await made.openLines(board, depth);
  const refused = made.layers.flatMap(({ layer, bytes, why }, place) => (why === null ? [] : [{ place, kind: layer.kind, name: layer.file.name, bytes, reply: why }]));
  return { count: made.layers.length, leftOut: made.leftOut, refused };
}

/** @param {Worker.ComparingAsked["mend"]} message @returns {Worker.ComparingAnswered["mend"]} */
const mend = ({ at, place, bytes, words }) => ({ reply: sideAt(at).mend(place, { bytes, words }) });

/** @param {import("../board/index.js").Layer[]} layers */
const restOf = (layers) => layers.map(({ layerFunction, file }) => ({ title: layerFunction.label, file: file.name }));

/** @returns {Worker.ComparingAnswered["pairs"]} */
function pairs() {
  boards = new ComparedBoards([sideAt(0), sideAt(1)]);
  const { rest: { onlyFirst, onlySecond } } = boards;
  return { pairs: boards.pairs.map(({ layers: [first, second] }) => ({ title: first.layerFunction.label, files: [first.file.name, second.file.name] })),
    onlyFirst: restOf(onlyFirst), onlySecond: restOf(onlySecond) };
}

// What came of a pair; one that cannot be compared is told, and the others go on.
/** @param {Worker.ComparingAsked["pair"]} message */
function pair({ at, pitch }) {
  const both = compared();
  try {
    return both.compare(at, pitch);
  } catch (fault) {
    if (fault instanceof WebAssembly.RuntimeError) throw fault;
    Object.assign(both.pair(at), { compared: null, window: null, refused: [`it cannot be compared: ${faultWords(fault)}`] });
    return both.compare(at, pitch);
  }
}

/** @param {Worker.ToComparing} message @returns {AnyAnswer | Promise<AnyAnswer>} */
function answered(message) {
  switch (message.kind) {
    case "open": return open(message);
    case "side": return side(message);
    case "mend": return mend(message);
    case "pairs": return pairs();
    case "pair": return pair(message);
    case "summary": return { words: summaryWords(message.outcomes, compared().rest) };
    case "place": return compared().place(message);
    default: return unknown(message);
  }
}

/** @type {(message: Worker.FromComparing, over?: Transferable[]) => void} */
const post = (message, over = []) => self.postMessage(message, over);

self.onmessage = async (/** @type {MessageEvent<Worker.ToComparing>} */ { data }) => {
  const { call } = data;
  try {
    const answer = await answered(data);
    post({ call, answer }, "pixels" in answer ? [answer.pixels.buffer] : []);
  } catch (fault) {
    post({ call, fault: faultWords(fault) });
  }
};
