// Items of the station alone, in a station of their own that has the definitions of their layers: the shapes of apertures, and
// how far two items are from one another by their pixels.

import { Station, linesOf } from "../station/index.js";
import { inkOf, paint, pictureOf } from "./pictures.js";
import { boxOf } from "./answers.js";
import { joined } from "../board/index.js";

/** @typedef {import("../bytes/index.js").Picture} Picture */

// So many apertures of a layer are drawn, more than a table is read through, and the picture of a gap has so many pixels along a
// side at most: two of them are 2 MB.
const SHAPES = 500, SIDE = 3000;

/** @typedef {{ start: number, end: number }} Run black pixels of a row, from the first one to before the last */

const text = new TextEncoder(), words = new TextDecoder();

const HEAD = "%FSLAX46Y46*%\n%MOMM*%\n", MODES = "G01*\nG75*\n";
// The graphics state as it is at the start of a file, whatever the objects of blocks left.
const PLAIN = "%LPD*%\n%LMN*%\n%LR0*%\n";

// The dictionary of a canonical text: what stands before its first item.
/** @param {string} canonical */
function dictionaryIn(canonical) {
  const lines = canonical.slice(canonical.indexOf(MODES) + MODES.length).split("\n");
  let isBlock = false, isMacro = false;
  const end = lines.findIndex((line) => {
    if (line.startsWith("%ABD")) isBlock = true;
    const isDefinition = isBlock || isMacro || /^%A[DM]/.test(line);
    if (line === "%AB*%") isBlock = false;
    if (line.startsWith("%AM")) isMacro = true;
    else if (line === "%") isMacro = false;
    return !isDefinition;
  });
  return lines.slice(0, end).map((line) => `${line}\n`).join("");
}

// The definitions of a Gerber layer: of one with blocks as its canonical text has them.
/** @param {Station} station @param {string} name @param {string[]} entries */
function definitionsOf(station, name, entries) {
  if (!entries.some((line) => line.startsWith("block "))) {
    return entries.filter((line) => !line.startsWith("aperture ")).map((line) => `${line}\n`).join("");
  }
  return station.apply(text.encode(`write ${name} apart`)) === 0 ? dictionaryIn(words.decode(station.file)) : "";
}

// A file with the definitions of a layer, and no item.
/** @param {Station} station @param {string} name */
function emptyOf(station, name) {
  const entries = linesOf(station, `entries ${name}`);
  if (!entries.some((line) => line.startsWith("tool "))) {
    return { kind: "gerber", text: `${HEAD}${MODES}${definitionsOf(station, name, entries)}${PLAIN}M02*\n` };
  }
  const tools = entries.filter((line) => !line.startsWith("tool ")).map((line) => `${line}\n`).join("");
  return { kind: "drill", text: `M48\nMETRIC\n${tools}%\nG05\nM30\n` };
}

// A station with a layer of each name that has the definitions of a layer of another one, and no item.
class Apart {
  /** @param {WebAssembly.Module} compiled @param {Station} station @param {[name: string, of: string][]} layers */
  constructor(compiled, station, layers) {
    this.station = new Station(compiled, 1);
    for (const [name, of] of layers) {
      const { kind, text: file } = emptyOf(station, of), code = this.station.apply(text.encode(`load ${name} ${kind} apart`), text.encode(file));
      if (code) throw new Error(`the definitions of ${of} cannot be read: ${code}`);
    }
  }

  /** @param {string} line */
  apply(line) {
    return this.station.apply(text.encode(line));
  }

  // The box of the item of a layer.
  /** @param {string} name */
  box(name) {
    return boxOf(this.station, `box ${name} 0`);
  }

  // The picture of a layer in a window.
  /** @param {string} name */
  picture(name) {
    return this.apply(`plot ${name} apart`) === 0 ? pictureOf(this.station.file) : null;
  }

  close() {
    this.station.close();
  }
}

// A window around a box whose pixels go so many times into its longer side.
/** @param {Board.Box} box @param {number} side */
function windowAround({ left, low, right, high }, side) {
  const pitch = Math.max(1, Math.ceil(Math.max(right - left, high - low) / (side - 2)));
  /** @type {(from: number, to: number) => [number, number]} */
  const along = (from, to) => [Math.floor(from / pitch) * pitch, Math.ceil(to / pitch) - Math.floor(from / pitch)];
  const [x, width] = along(left, right), [y, height] = along(low, high);
  return { x, y, pitch, width, height, line: `window ${x} ${y} ${pitch} ${width} ${height}` };
}

// The bitmap of a picture in a colour, in the middle of a square.
/** @param {Picture} picture @param {number} side @param {string} colour */
function bitmapOf(picture, side, colour) {
  const canvas = new OffscreenCanvas(side, side), { stride, width, height } = picture, image = new ImageData(stride * 8, height);
  /** @param {number} length */
  const before = (length) => Math.floor((side - length) / 2);
  paint(picture, 1, inkOf(colour), new Uint32Array(image.data.buffer), image.width);
  canvas.getContext("2d").putImageData(image, before(width), before(height), 0, 0, width, height);
  return canvas.transferToImageBitmap();
}

/**
 * What `use` makes of a station apart; `otherwise` where it cannot be had, or has no room for that: the page's own one goes on.
 * @template T
 * @param {WebAssembly.Module} compiled
 * @param {Station} station
 * @param {[name: string, of: string][]} layers
 * @param {T} otherwise
 * @param {(apart: Apart) => T} use
 * @returns {T}
 */
function withApart(compiled, station, layers, otherwise, use) {
  let apart = null;
  try {
    apart = new Apart(compiled, station, layers);
    return use(apart);
  } catch {
    return otherwise;
  } finally {
    apart?.close();
  }
}

/**
 * The shape of each aperture and block of a layer as the station paints its flash: { number, bitmap }, null for none.
 * @param {WebAssembly.Module} compiled
 * @param {Station} station
 * @param {Worker.StationAsked["shapes"]} message
 * @returns {Worker.StationAnswered["shapes"]["shapes"]}
 */
export function shapes(compiled, station, { name, side, colour }) {
  const numbers = linesOf(station, `entries ${name}`).flatMap((line) => /^(?:aperture|block) (\d+)/.exec(line)?.[1] ?? []);
  return withApart(compiled, station, [["shapes", name]], [], (apart) => {
    return numbers.slice(0, SHAPES).map((number) => {
      if (apart.apply(`insert shapes 0 flash ${number} 0 0 r0 dark`)) return { number: Number(number), bitmap: null };
      const box = apart.box("shapes"), isSet = box && apart.apply(windowAround(box, side).line) === 0;
      const picture = isSet ? apart.picture("shapes") : null, bitmap = picture && bitmapOf(picture, side, colour);
      apart.apply("delete shapes 0");
      return { number: Number(number), bitmap };
    });
  });
}

// The runs of black pixels of each row, of a picture.
/** @param {Picture} picture */
function runsOf({ width, height, stride, bits }) {
  /** @type {Run[][]} */
  const rows = [];
  for (let row = 0; row < height; row++) {
    /** @type {Run[]} */
    const runs = [];
    let start = 0, isBlack = false;
    for (let column = 0; column < width; column++) {
      const isBit = ((bits[row * stride + (column >> 3)] ?? 0) >> 7 - (column & 7) & 1) === 1;
      if (isBit === isBlack) continue;
      if (isBlack) runs.push({ start, end: column });
      start = column;
      isBlack = isBit;
    }
    if (isBlack) runs.push({ start, end: width });
    rows.push(runs);
  }
  return rows;
}

// The nearest columns of two rows, each the distance of their pixels' middles along the row; infinitely far where one is white.
/** @param {Run[]} ones @param {Run[]} others */
function nearestColumns(ones, others) {
  let best = { across: Infinity, from: 0, to: 0 };
  for (const one of ones) {
    for (const other of others) {
      const right = other.start - one.end + 1, left = one.start - other.end + 1, across = Math.max(0, right, left);
      if (across >= best.across) continue;
      const column = Math.max(one.start, other.start);
      best = right > 0 ? { across, from: one.end - 1, to: other.start } : left > 0 ? { across, from: one.start, to: other.end - 1 }
        : { across, from: column, to: column };
    }
  }
  return best;
}

// The nearest black pixels of two pictures of the same window, in pixels; null where one is white.
/** @param {Picture} first @param {Picture} second @returns {{ distance: number, from: Board.Pair, to: Board.Pair } | null} */
function nearestPixels(first, second) {
  const others = runsOf(second);
  /** @type {{ distance: number, from: Board.Pair, to: Board.Pair } | null} */
  let best = null;
  for (const [row, one] of runsOf(first).entries()) {
    if (!one.length) continue;
    for (let away = 0; away < others.length && (!best || away < best.distance); away++) {
      for (const to of away ? [row - away, row + away] : [row]) {
        const other = others[to];
        if (!other?.length) continue;
        const found = nearestColumns(one, other), distance = Math.hypot(found.across, away);
        if (!best || distance < best.distance) best = { distance, from: [found.from, row], to: [found.to, to] };
      }
    }
  }
  return best;
}

// The words of an item that paints where it did, whatever its polarity is.
/** @param {string} item */
const dark = (item) => item.replace(/ clear$/, " dark").replace(/^region clear/, "region dark");

/**
 * How far two items are from one another by their pixels: { distance, pitch, from, to }, in nm between the middles of black
 * pixels; null where that cannot be told.
 * @param {WebAssembly.Module} compiled
 * @param {Station} station
 * @param {Board.Asked["gap"]} message
 * @returns {Board.Answered["gap"]}
 */
export function gap(compiled, station, { pair: [one, other] }) {
  const nothing = { gap: null };
  if (!one || !other || [one, other].some(({ words: its }) => its.startsWith("repeat"))) return nothing;
  return withApart(compiled, station, [["one", one.name], ["other", other.name]], nothing, (apart) => {
    if (apart.apply(`insert one 0 ${dark(one.words)}`) || apart.apply(`insert other 0 ${dark(other.words)}`)) return nothing;
    const first = apart.box("one"), second = apart.box("other"), all = first && second && joined([first, second]);
    if (!all) return nothing;
    const { x, y, pitch, height, line } = windowAround(all, SIDE);
    if (apart.apply(line)) return nothing;
    const ones = apart.picture("one"), others = apart.picture("other"), found = ones && others && nearestPixels(ones, others);
    /** @param {Board.Pair} pixel @returns {Board.Pair} */
    const place = ([column, row]) => [Math.round(x + (column + 0.5) * pitch), Math.round(y + (height - row - 0.5) * pitch)];
    return { gap: found && { distance: found.distance * pitch, pitch, from: place(found.from), to: place(found.to) } };
  });
}
