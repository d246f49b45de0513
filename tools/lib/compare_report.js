// A page with what differs between two boards: one file, which loads nothing. Whatever stands in a file or in a name is
// escaped, and its pictures are PNG files inside the page.

import { changeWords, placeLine, windowOfPlace } from "../../web/compare/index.js";
import { counted } from "../../web/nets/index.js";
import { pngOfColours } from "./png.js";

/** @typedef {import("./compare_layers.js").ComparedPair} ComparedPair */
/** @typedef {import("./compare_layers.js").Pictures} Pictures */
/** @typedef {import("../../web/compare/index.js").Compared} Compared */
/** @typedef {import("../../web/compare/index.js").Owners} Owners */
/** @typedef {import("../../web/compare/index.js").Place} Place */
/** @typedef {{title: string, outcome: string, besides: string[], owners: Owners}} Lines what is told of a pair */
/** @typedef {import("../../web/board/index.js").PlotWindow} PlotWindow */

/** The sides of a picture in pixels. */
export const PICTURE = { width: 360, height: 270 };
/** So many places of a layer have pictures, so many changes of one are told, and so many are framed. */
const MOST_PLACES = 60, MOST_CHANGES = 20, MOST_FRAMES = 200;

const COLOURS = ["#15181c", "#9aa0a8", "#ef6a57", "#4f9df0", "#f2eda1"];
const EMPTY = 0, BOTH = 1, ONLY_A = 2, ONLY_B = 3, FRAME = 4;

const STYLE = `body { font: 15px/1.45 sans-serif; margin: 2em auto; max-width: 76em; padding: 0 1em; color: #1d2127; background: #fff }
h2 { margin-top: 2em; border-top: 1px solid #ccd; padding-top: 0.6em } figure { display: inline-block; margin: 0 0.6em 0.6em 0 }
figcaption { font-size: 85% } img { display: block; max-width: 100%; image-rendering: pixelated } li, td, th, h3 { overflow-wrap: anywhere }
table { border-collapse: collapse } td, th { text-align: left; vertical-align: top; padding: 0.2em 1.2em 0.2em 0 }
.a { color: #b03a28 } .b { color: #1f62ad }
@media (prefers-color-scheme: dark) { body { color: #dfe3e8; background: #15181c } .a { color: #ef6a57 } .b { color: #4f9df0 } h2 { border-color: #445 } }`;

/** @type {Record<string, string>} */
const ESCAPES = { "&": "&amp;", "<": "&lt;", ">": "&gt;", '"': "&quot;", "'": "&#39;" };

/**
 * A text as HTML shows it.
 * @param {string} text
 */
export function escaped(text) {
  // Letters that are not printed, and those that turn the way of writing, would show another text.
  return text.replace(/[\p{Cc}\p{Cf}\p{Cs}]/gu, "\ufffd").replace(/[&<>"']/g, (letter) => ESCAPES[letter] ?? "");
}

/** @param {string} name @param {string} text */
const element = (name, text) => `<${name}>${escaped(text)}</${name}>`;

/**
 * A picture at a pixel, which lies in it.
 * @param {import("../../web/bytes/index.js").Picture} picture
 * @param {number} column
 * @param {number} row
 */
const isBlack = ({ bits, stride }, column, row) => (/** @type {number} */ (bits[row * stride + (column >> 3)]) & (128 >> (column & 7))) !== 0;

/**
 * Three pictures of a place: of each side, in which what it alone has is coloured, and of both.
 * @param {Pictures} pictures of both sides
 */
function painted([first, second]) {
  const { width, height } = first, make = () => new Uint8Array(width * height), a = make(), b = make(), both = make();
  for (let row = 0, at = 0; row < height; row++) {
    for (let column = 0; column < width; column++, at++) {
      const inA = isBlack(first, column, row), inB = isBlack(second, column, row);
      const ofA = inA ? (inB ? BOTH : ONLY_A) : EMPTY, ofB = inB ? (inA ? BOTH : ONLY_B) : EMPTY;
      a[at] = ofA;
      b[at] = ofB;
      both[at] = ofA || ofB;
    }
  }
  return { a, b, both };
}

// Frames around what changed, by which it is seen where no pixel shows it.
/** @param {Uint8Array} pixels @param {PlotWindow} window @param {Board.Box} box */
function frame(pixels, { x, y, pitch, width, height }, { left, low, right, high }) {
  /** @param {number} at */
  const column = (at) => Math.floor((at - x) / pitch);
  /** @param {number} at */
  const row = (at) => height - 1 - Math.floor((at - y) / pitch);
  const first = column(left) - 2, last = column(right) + 2, top = row(high) - 2, bottom = row(low) + 2;
  /** @param {number} across @param {number} down */
  const put = (across, down) => {
    if (across >= 0 && across < width && down >= 0 && down < height) pixels[down * width + across] = FRAME;
  };
  for (let at = Math.max(0, first); at <= Math.min(width - 1, last); at++) [top, bottom].forEach((down) => put(at, down));
  for (let at = Math.max(0, top); at <= Math.min(height - 1, bottom); at++) [first, last].forEach((across) => put(across, at));
}

/** @param {Uint8Array} pixels @param {string} caption @param {string} kind */
function figure(pixels, caption, kind) {
  const { width, height } = PICTURE, png = pngOfColours(width, height, pixels, COLOURS).toString("base64");
  return `<figure><img width="${width}" height="${height}" alt="${escaped(caption)}" src="data:image/png;base64,${png}">`
    + `<figcaption class="${kind}">${escaped(caption)}</figcaption></figure>`;
}

/**
 * The changes of a place.
 * @param {Compared} compared
 * @param {Place} place
 */
export const changesAt = ({ changes }, { owners }) => owners.flatMap((owner) => changes[owner] ?? []);

/**
 * A place with its pictures.
 * @param {Compared} compared
 * @param {Place} place
 * @param {{window: PlotWindow, pictures: Pictures, number: number, owners: Owners}} shown
 */
function placeHtml(compared, place, { window, pictures, number, owners }) {
  const { a, b, both } = painted(pictures), changes = changesAt(compared, place);
  for (const box of changes.flatMap(({ boxes }) => boxes).slice(0, MOST_FRAMES)) frame(both, window, box);
  const rows = changes.slice(0, MOST_CHANGES).map((change) => {
    const of = owners.words(change);
    return element("li", `${changeWords(change, compared)}${of && ` (${of})`}`);
  });
  const more = changes.length > MOST_CHANGES ? [element("li", `and ${counted(changes.length - MOST_CHANGES, "more item")}`)] : [];
  return [element("h3", `${number}. ${placeLine(place)}`), `<ul>${[...rows, ...more].join("")}</ul>`, "<div>",
    figure(a, "A: what B lacks is red", "a"), figure(b, "B: what A lacks is blue", "b"),
    figure(both, `both, with frames around what changed; pixels of ${window.pitch} nm`, "both"), "</div>"].join("\n");
}

/** @param {ComparedPair} pair @param {Compared} compared @param {Owners} owners */
function placesHtml(pair, compared, owners) {
  const shown = compared.places.slice(0, MOST_PLACES), left = compared.places.length - shown.length;
  const windows = shown.map(({ box }) => windowOfPlace(box, PICTURE.width, PICTURE.height));
  const drawn = windows.length ? pair.pictures(windows) : [];
  return [...shown.flatMap((place, at) => {
    const window = windows[at], pictures = drawn[at];
    return window && pictures ? [placeHtml(compared, place, { window, pictures, number: at + 1, owners })] : [];
  }), ...left > 0 ? [element("p", `${counted(left, "more place")} without pictures`)] : []];
}

/** @param {ComparedPair} pair @param {Lines} lines */
function pairHtml(pair, { title, outcome, besides, owners }) {
  return [element("h2", `${title}: ${outcome}`), element("p", pair.layers.map(({ file }, at) => `${"AB"[at]}: ${file.name}`).join("; ")),
    ...besides.length ? [`<ul>${besides.map((line) => element("li", line)).join("")}</ul>`] : [],
    ...pair.compared ? placesHtml(pair, pair.compared, owners) : []].join("\n");
}

/**
 * The page.
 * @param {{title: string}[]} boards
 * @param {ComparedPair[]} pairs
 * @param {{onlyFirst: import("../../web/board/index.js").Layer[], onlySecond: import("../../web/board/index.js").Layer[]}} rest
 * @param {string} summary
 * @param {(pair: ComparedPair) => Lines} linesOf
 * @returns {string}
 */
export function reportOf(boards, pairs, { onlyFirst, onlySecond }, summary, linesOf) {
  /** @param {string[]} cells */
  const row = (cells) => `<tr>${cells.map((cell) => element("td", cell)).join("")}</tr>`;
  const told = pairs.map((pair) => ({ pair, lines: linesOf(pair) }));
  const rows = [...told.map(({ lines: { title, outcome, besides } }) => row([title, outcome, besides.length ? `${counted(besides.length, "note")} below` : ""])),
    ...onlyFirst.map(({ layerFunction, file }) => row([layerFunction.label, "only in A", file.name])),
    ...onlySecond.map(({ layerFunction, file }) => row([layerFunction.label, "only in B", file.name]))];
  const longer = told.filter(({ pair, lines: { besides } }) => !pair.isSame || besides.length);
  return ["<!doctype html>", '<html lang="en"><head><meta charset="utf-8">',
    "<meta http-equiv=\"Content-Security-Policy\" content=\"default-src 'none'; img-src data:; style-src 'unsafe-inline'\">",
    '<meta name="viewport" content="width=device-width">', element("title", "Two revisions of a board"), `<style>${STYLE}</style></head><body>`,
    element("h1", "Two revisions of a board"), ...boards.map(({ title }, at) => element("p", `${"AB"[at]}: ${title}`)), element("p", summary),
    `<table>${rows.join("\n")}</table>`, ...longer.map(({ pair, lines: own }) => pairHtml(pair, own)), "</body></html>", ""].join("\n");
}
