// tools/items: which item is K.

import { GERBER, Reply, explain, far, itemOf, kindOf } from "../../web/board/index.js";
import { counted } from "../../web/nets/index.js";
import { AskedLayer } from "./asked_layer.js";
import { Call, DONE, Failure, perform, say, withEach } from "./command.js";
import { contourBox, lengthOf } from "./contours.js";
import { readBytes } from "./files.js";
import { mended } from "./mending.js";
import { option } from "./options.js";
import { printedInto, sayJson } from "./output.js";
import { called } from "./places.js";
import { meanings } from "./station.js";

// A region of more words than this is cut short.
const WORDS = 40;
// Long regions are no measure of the column.
const COLUMN = 80;
// Lines that are printed at once.
const LINES = 10_000;

const TOOL = called("items");
export const COMMAND = {
  tool: TOOL,
  about: `Numbers the items of a layer as a script counts them, from 0: the place K that \`delete\`, \`move\` and others take.

  ${TOOL} FILE                     all items of a text that camplot's \`write\` gave, Gerber or XNC
  ${TOOL} FILE --at X Y            only those whose box holds this point, in nm
  ${TOOL} FILE --only flash        only those of one kind
  ${TOOL} FILE --apertures         the apertures and blocks, or the tools, in place of the items
  ${TOOL} FILE FILE -o list        of several files, into a file

Each line has the place K, the item in the words that \`insert\` takes, and its size. All lengths are in nm. The objects
of a repeat, which no \`insert\` takes, stand below it; they have no place of their own. A region or a slot of many points
is cut short, unless --whole is given. Definitions are no items.

FILE may be any other Gerber or drill file too: these are then the items that camplot makes of it, and the first line of
what is printed tells so. The exit status is 0; 2 if a file cannot be read; 3 if standard output cannot be written.`,
  operand: { name: "FILE", isMany: true, help: "Gerber and drill files, or - for standard input" },
  options: [option("--at"), option("--only"), option("--apertures"), option("--whole"), option("--out", ": a file"),
    option("--replace"), option("--json")],
};

/** @typedef {Calls.Asked<typeof COMMAND>} Options */
/** @typedef {[place: string, item: string, size: string]} Row */

/** @param {string} words @param {boolean} isWhole */
function shortened(words, isWhole) {
  if (isWhole || words.length <= COLUMN) return words;
  const parts = words.split(" ");
  return parts.length <= WORDS ? words : `${parts.slice(0, WORDS).join(" ")} .. ${parts.length - WORDS} more words`;
}

/** @param {Board.Box | null} box */
const sidesOf = (box) => (box ? `${box.right - box.left} x ${box.high - box.low}` : "nothing");
/** @param {string} length in mm */
const nmOf = (length) => Math.round(Number(length) * 1e6);

// The first line of an entry, whose definition stands below.
const ENTRY = /^(aperture|block|tool) (\d+)(?: (\d+))?$/;

// A definition of one of the simple shapes, or of a tool, in words; null where a line is none.
/** @param {string} line */
function shapeOf(line) {
  const tool = /^T\d+C([\d.]+)$/.exec(line)?.[1], [, name, sizes = ""] = /^%ADD\d+([CRO]),([\d.X]+)\*%$/.exec(line) ?? [];
  if (tool) return `diameter ${nmOf(tool)}`;
  if (!name) return null;
  const lengths = sizes.split("X").map(nmOf), hole = lengths[name === "C" ? 1 : 2];
  return `${name} ${lengths.slice(0, name === "C" ? 1 : 2).join(" x ")}${hole === undefined ? "" : ` with a hole of ${hole}`}`;
}

/** The items of a layer in rows, each with its size in words. */
class Sizes {
  /** @param {AskedLayer} layer */
  constructor(layer) {
    this.layer = layer;
    /** @type {Map<number, string>} by the numbers of apertures and blocks, or of tools */
    this.entries = new Map();
    const lines = layer.ask("entries");
    this.letter = lines[0]?.startsWith("tool") ? "T" : "D";
    /** @type {{kind: string, number: string, count: string, shape: string | null}[]} each with that of the first line that has one */
    const found = [];
    for (const line of lines) {
      const [head, kind = "", number = "", count = ""] = ENTRY.exec(line) ?? [], last = found.at(-1);
      if (head !== undefined) found.push({ kind, number, count, shape: null });
      else if (last) last.shape ??= shapeOf(line);
    }
    for (const { kind, number, count, shape } of found) this.entries.set(Number(number), shape ?? this.flashed(kind, number, count));
  }

  // A block or primitives: the box of a flash of it is asked for.
  /** @param {string} kind @param {string} number @param {string} count */
  flashed(kind, number, count) {
    const sides = sidesOf(this.layer.boxOf(`flash ${number} 0 0 r0 dark`));
    return kind === "block" ? `block ${sides}, ${counted(Number(count), "object")}` : `primitives ${sides}`;
  }

  /**
   * The size of an item. (Flashes, hits and draws come by the million, so they are not taken apart whole.)
   * @param {string} words
   * @returns {string}
   */
  of(words) {
    const [kind, number, sx, sy, ex, ey] = words.split(" ", 6), entry = this.entries.get(Number(number)) ?? "";
    if (kind === "flash" || kind === "hit") return entry;
    if (kind === "draw") return `${entry}, ${Math.round(Math.hypot(Number(ex) - Number(sx), Number(ey) - Number(sy)))} long`;
    const item = itemOf(words);
    if (item?.kind === "arc") {
      const [start, , centre] = item.points;
      if (start && centre) return `${entry}, radius ${Math.round(far(start, centre))}`;
    }
    if (item?.kind === "rout") return `${entry}, ${Math.round(lengthOf(item.points))} long`;
    if (item?.kind !== "region") throw new Failure(`no item that is known: ${shortened(words, false)}`);
    const [start] = item.points, box = start ? contourBox(start, item.segments) : null;
    return `${sidesOf(box)}, ${counted(item.segments.length, "segment")}`;
  }

  /**
   * The rows of the item at a place, whose objects are the lines after it.
   * @param {number} place
   * @param {string} words
   * @param {string[]} objects
   * @param {boolean} isWhole
   * @returns {Row[]}
   */
  rows(place, words, objects, isWhole) {
    if (!words.startsWith("repeat ")) return [[String(place), shortened(words, isWhole), this.of(words)]];
    const [, columns, lines, i, j, count] = words.split(" ");
    return [[String(place), `repeat ${columns} x ${lines} at steps ${i} ${j}`,
      `${sidesOf(this.layer.boxAt(place))}, ${counted(Number(count), "object")}`],
    ...objects.map((/** @returns {Row} */ (object) => [" ", `  ${shortened(object, isWhole)}`, this.of(object)]))];
  }
}

// The rows of the items that are wanted.
/** @param {AskedLayer} layer @param {Options} options */
function rowsOf(layer, { only, at, whole }) {
  const sizes = new Sizes(layer), places = at && new Set(layer.placesAt(at[0], at[1]));
  /** @type {Row[]} */
  const rows = [["K", "item", "size in nm"]];
  for (const { place, words, objects } of layer.itemsWithObjects()) {
    if (only !== null && !words.startsWith(`${only} `) || places && !places.has(place)) continue;
    rows.push(...sizes.rows(place, words, objects, whole));
  }
  return rows;
}

/** @param {AskedLayer} layer @param {Options} options */
function showItems(layer, options) {
  const rows = rowsOf(layer, options);
  let places = 0, words = 4;
  for (const [place, item] of rows) {
    places = Math.max(places, place.length);
    if (item.length <= COLUMN) words = Math.max(words, item.length);
  }
  for (let from = 0; from < rows.length; from += LINES) {
    say(rows.slice(from, from + LINES).map(([place, item, size]) => {
      return `${place.padStart(places)}  ${item.padEnd(words)}  ${size}`;
    }).join("\n"));
  }
}

/** @param {AskedLayer} layer */
function showApertures(layer) {
  const { entries, letter } = new Sizes(layer);
  for (const [number, size] of entries) say(`${letter}${String(number).padEnd(6)} ${size}`);
}

// The same as values: the objects of a repeat have its place.
/** @param {AskedLayer} layer @param {Options} options */
function valuesOf(layer, options) {
  if (options.apertures) return { apertures: [...new Sizes(layer).entries].map(([number, size]) => ({ number, size })) };
  let last = 0;
  const items = rowsOf(layer, options).slice(1).map(([place, item, size]) => {
    const isObject = place === " ";
    last = isObject ? last : Number(place);
    return { place: last, item: item.trimStart(), size, ...(isObject ? { isObject } : {}) };
  });
  return { items };
}

// A file as a layer, and whether it is what camplot writes of it.
/** @param {string} path */
function asked(path) {
  const bytes = readBytes(path), kind = kindOf(bytes) ?? GERBER, layer = new AskedLayer(kind, bytes);
  if (!layer.isLoaded) {
    const way = mended(kind, bytes, path), why = explain(new Reply(1, `load it ${kind} file`, layer.reply.split(" ")), meanings(), bytes);
    throw new Failure(`${path}: ${why}${way === null ? "" : `; ${way}`}`);
  }
  return { layer, isWritten: Buffer.compare(layer.text(), bytes) === 0 };
}

/** @param {string} path @param {ReturnType<typeof asked>} found @param {Options} options */
function show(path, { layer, isWritten }, options) {
  if (options.operands.length > 1) say(`${path}:`);
  if (!isWritten) say(`${path} is not a text that camplot wrote: these are its items after it is loaded`);
  if (options.apertures) showApertures(layer);
  else showItems(layer, options);
}

/** @param {Options} options */
function run(options) {
  if (options.operands.filter((path) => path === "-").length > 1) throw new Call("-: standard input is read once");
  /** @type {object[]} */
  const values = [];
  return printedInto(options, () => {
    const status = withEach(TOOL, options.operands, (path) => {
      const found = asked(path);
      if (options.json) values.push({ file: path, isWritten: found.isWritten, ...valuesOf(found.layer, options) });
      else show(path, found, options);
      return DONE;
    });
    if (options.json) sayJson({ files: values });
    return status;
  });
}

/**
 * Runs the command with the words of a call.
 * @param {string[]} words
 */
export function main(words) {
  return perform(COMMAND, run, words);
}
