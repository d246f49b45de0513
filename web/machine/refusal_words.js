// What each number of a refusal means and what to do about it, as docs/refusals.md has it: web/build puts its data into
// the page.

import { excerpt, placeOf } from "../board/index.js";

/** @type {{ general: Record<string, Machine.Explained>, drill: Record<string, Machine.Explained> }} */
let known = { general: {}, drill: {} };

/** @param {typeof known} data */
export const knowRefusals = (data) => { known = data; };

/** @param {number} code @param {string} kind */
const entryOf = (code, kind) => (kind === "drill" ? known.drill[code] : null) ?? known.general[code] ?? null;

// A sentence or two for people, of the number of a refusal.
/** @param {number} code @param {string} kind */
export function advice(code, kind = "gerber") {
  const entry = entryOf(code, kind);
  return entry ? `${entry.name}. ${entry.text}` : "it is refused";
}

// A refused load, of its reply and its bytes.
/** @param {string} reply @param {Uint8Array} bytes @param {string} kind */
export function refusalWords(reply, bytes, kind) {
  const [, code = NaN, at] = reply.split(" ").map(Number);
  const words = `refused ${code}, ${advice(code, kind)}`;
  if (Number.isNaN(at) || at === undefined) return words;
  const { line, column } = placeOf(bytes, at);
  return `${words} At line ${line}, column ${column} (byte ${at})${at < bytes.length ? `: ${excerpt(bytes, at)}` : ", the end."}`;
}
