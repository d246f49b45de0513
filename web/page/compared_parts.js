// The elements of the panel that compares two boards: they are its own, and no other part of the page knows them.

import { button, byId, element } from "./dom.js";

/** The pitches by which pictures are compared, in nm. */
const PITCHES = /** @type {const} */ ([["25400", "25.4 µm"], ["10000", "10 µm"], ["5000", "5 µm"]]);
const WAYS = /** @type {const} */ ([["both", "both colours"], ["slider", "slider"], ["blink", "blink"]]);
/** What its colours are. */
const MARKS = /** @type {const} */ ([["both", "in both"], ["a", "in A alone"], ["b", "in B alone"], ["frame", "what changed"]]);

/**
 * What the buttons of the panel do.
 * @typedef {object} Does
 * @property {() => unknown} save
 * @property {() => unknown} swap
 * @property {() => unknown} compare
 * @property {() => unknown} show
 * @property {(by: number) => unknown} step
 * @property {(factor: number) => unknown} closer
 */

/**
 * An element under an id of the panel.
 * @template {keyof HTMLElementTagNameMap} K
 * @param {K} name
 * @param {string} id
 * @param {Record<string, unknown>} properties
 * @param {(Node | string)[]} children
 */
const own = (name, id, properties = {}, ...children) => element(name, { id: `two-boards-${id}`, ...properties }, ...children);

/** @param {string} id @param {string} words @param {() => unknown} run @param {string} title */
const ownButton = (id, words, run, title = "") => button(words, run, { id: `two-boards-${id}`, title });

/** @param {string} key */
const keyOf = (key) => element("kbd", {}, key);

// How a place is shown.
/** @param {import("./compared_picture.js").ComparedPicture} picture */
const waysOf = (picture) => element("div", { className: "row", role: "radiogroup", "aria-label": "how a place is shown" }, ...WAYS.map(([value, words]) =>
  element("label", { className: "target" }, element("input", { type: "radio", name: "two-boards-way", value, checked: value === picture.way,
    onchange: () => picture.turnTo(value) }), ` ${words}`)));

// From place to place, and how close.
/** @param {Does} does @param {HTMLElement} show */
const movesOf = ({ step, closer }, show) => element("p", { className: "buttons" }, ownButton("back", "place before", () => step(-1), "Shift N"), keyOf("Shift N"),
  ownButton("next", "next place", () => step(1), "N"), keyOf("N"), ownButton("closer", "closer", () => closer(2), "+"),
  ownButton("farther", "farther", () => closer(1 / 2), "−"), show);

/**
 * The panel and what is written into it; the dialogue and the button of its command are in the page then.
 * @param {import("./compared_picture.js").ComparedPicture} picture
 * @param {Does} does
 */
export function partsOf(picture, does) {
  const pitch = own("select", "pitch", { "aria-label": "pixels of the comparison" }, ...PITCHES.map(([value, words]) => element("option", { value }, words)));
  const files = own("input", "files", { type: "file", multiple: true, hidden: true });
  const folder = own("input", "folder", { type: "file", webkitdirectory: true, hidden: true });
  const said = own("p", "said", { role: "status" }), titles = own("div", "titles"), choose = own("div", "choose");
  const pairs = own("ul", "pairs", { "aria-label": "Pairs of layers" }), where = own("h3", "where"), line = own("p", "line"), changes = own("ul", "changes");
  const report = ownButton("report", "save report", does.save), swap = ownButton("swap", "swap A and B", does.swap);
  const again = ownButton("again", "compare again", does.compare), show = ownButton("show", "show on the board", does.show);
  const legend = own("p", "legend", { className: "hint" }, ...MARKS.map(([className, words]) => element("span", { className }, element("i"), words)));
  const place = own("section", "place", {}, where, line, picture.canvas, picture.slider, waysOf(picture), legend, movesOf(does, show), changes);
  /** @type {HTMLDialogElement} */
  const dialog = element("dialog", { id: "two-boards", "aria-labelledby": "two-boards-title" }, element("header", {}, own("h2", "title", {}, "Compare boards"), titles,
    element("div", { className: "buttons" }, swap, again, element("label", {}, "pixels ", pitch), report, ownButton("close", "close", () => dialog.close()))),
  choose, files, folder, said, own("div", "body", {}, pairs, place));
  const command = element("button", { type: "button", "data-act": "compare-boards" }, "compare");
  document.body.append(dialog);
  byId("tools").append(element("div", { className: "group", role: "group", "aria-label": "Boards" }, command));
  return { pitch, files, folder, said, titles, choose, pairs, where, line, changes, report, swap, again, show, place, dialog, command };
}
