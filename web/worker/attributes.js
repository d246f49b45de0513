// What saving drops of a layer's attributes, and its text with them: read of the files next to the station, carried
// through the lines of the script, and checked by a station of its own.

import { NotJoined, begun, carried, checkedWithAttributes, dropped, droppedWords, readAttributes, saidOf } from "../attributes/index.js";
import { Station } from "../station/index.js";
import { faultWords } from "./faults.js";

const text = new TextEncoder();

const PERCENT = 37, BANG = 33, LETTER_T = 84, LETTER_A = 65, LETTER_O = 79;

// Whether an attribute of an aperture or an object may stand in a file. Most large files have none, and are not read twice.
/** @param {Uint8Array} bytes */
export function mayHaveAttributes(bytes) {
  for (let at = bytes.indexOf(LETTER_T); at >= 0; at = bytes.indexOf(LETTER_T, at + 1)) {
    if (bytes[at + 1] !== LETTER_A && bytes[at + 1] !== LETTER_O) continue;
    let before = at - 1;
    while (before >= 0 && (bytes[before] ?? 0) <= 32) before--;
    if (bytes[before] === PERCENT || bytes[before] === BANG) return true;
  }
  return false;
}

// Of each file what is lost where its layer is saved as the station writes it, in words.
/** @param {Board.Asked["dropped"]} message @returns {Board.Answered["dropped"]} */
export const droppedOf = ({ files }) => ({
  files: files.map(({ id, bytes }) => ({ id, words: mayHaveAttributes(bytes) ? dropped(bytes).map(droppedWords) : [] })),
});

// The canonical text that another station writes of bytes that it loads.
/** @param {WebAssembly.Module} compiled @param {Uint8Array} bytes */
function rewritten(compiled, bytes) {
  const station = new Station(compiled, 1);
  try {
    const code = station.apply(text.encode("load checked gerber checked"), bytes)
      || station.apply(text.encode("write checked checked"));
    if (code) throw new Error(`refused ${code}`);
    return station.file;
  } finally {
    station.close();
  }
}

// The texts of layers with their attributes, by the accepted lines of the script, those of loads with their files; or why
// one has none.
/** @param {WebAssembly.Module} compiled @param {Board.Asked["withAttributes"]} message @returns {Promise<Board.Answered["withAttributes"]>} */
export async function withAttributes(compiled, { layers, entries, depth }) {
  /** @type {Map<string, import("../attributes/index.js").Reading>} */
  const readings = new Map();
  let state = begun(depth);
  for (const { line, bytes } of entries) {
    const [word, name = "", kind] = line.trim().split(/[ \t]+/);
    const reading = word === "load" && kind === "gerber" && bytes ? readAttributes(bytes) : null;
    if (reading) readings.set(name, reading);
    state = carried(state, line, reading?.items ?? null);
  }
  const files = [];
  for (const { name, canonical } of layers) {
    const reading = readings.get(name);
    try {
      const said = saidOf(state, name);
      if (!reading || !said) throw new NotJoined(name, "no Gerber file is loaded as that");
      const bytes = await checkedWithAttributes(canonical, said, reading.apertures, reading.blocks, (made) => rewritten(compiled, made));
      files.push({ name, bytes });
    } catch (fault) {
      files.push({ name, bytes: null, why: faultWords(fault) });
    }
  }
  return { files };
}
