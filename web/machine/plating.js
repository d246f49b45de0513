// Whether the holes of a drill layer are plated, as its file says: of the whole file by its file function, of a tool by the function
// that stands before it; or as the layer's name has it.

import { fileFunction } from "../board/index.js";
import { latin1 } from "../bytes/index.js";
import { bytesOf } from "./state.js";
import { wordsOf } from "./steps.js";

// A file says it in its header, which has at most so many bytes.
const HEAD = 1 << 20;

// (a file may say any word)
const WORDS = new Map([["Plated", "yes"], ["NonPlated", "no"]]);

// What stands before each tool of a header: `; #@! TA.AperFunction,Plated,PTH,ViaDrill`, until another one or `TD`.
/** @param {string} head */
function ofTools(head) {
  /** @type {Map<number, string>} */
  const found = new Map();
  let said = "";
  for (const line of head.split(/\r?\n/)) {
    const function_ = /TA\.AperFunction,(\w+)/.exec(line)?.[1], tool = /^T0*(\d+)[^;]*C/.exec(line)?.[1];
    if (function_) said = function_;
    else if (/#@! TD/.test(line)) said = "";
    else if (tool) found.set(Number(tool), said);
    else if (line.startsWith("%") || line.trim() === "M95") break;
  }
  return found;
}

/**
 * Words for the tools of a layer: `of(number)` is "yes", "no", or "?" where nothing says it.
 * @param {Machine.State} state
 * @param {string} name
 */
export function platingOf({ told, files }, name) {
  const load = told.find(({ line, reply }) => reply.startsWith("ok") && wordsOf(line)[0] === "load" && wordsOf(line)[1] === name);
  const bytes = bytesOf(files, load?.file)?.subarray(0, HEAD) ?? new Uint8Array();
  const [whole = ""] = fileFunction(bytes)?.split(",") ?? [], tools = ofTools(latin1(bytes));
  const byName = name.startsWith("plated") ? "yes" : name.startsWith("nonplated") ? "no" : "?";
  return { of: (/** @type {number} */ number) => WORDS.get(tools.get(number) ?? "") ?? WORDS.get(whole) ?? byName };
}
