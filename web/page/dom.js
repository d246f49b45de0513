// The elements of the page. What comes of a file becomes text, and never HTML.

import { short } from "../board/index.js";

// Letters of what happened, so that the words of a long item are not laid out in the one line that they have.
const MOST_TOLD = 1000;

// The element of index.html of this name; what it is stands in `Page.Ids`, which test_page_ids.js compares with index.html.
export const byId = /** @type {Page.ById} */ ((id) => {
  const found = document.getElementById(id);
  if (!found) throw new Error(`the page has no '${id}'`);
  return found;
});

// The text of such an element.
/** @param {string} id */
export const textOf = (id) => byId(id).textContent ?? "";

// What a canvas is drawn on by.
/** @param {HTMLCanvasElement} canvas @param {CanvasRenderingContext2DSettings} settings */
export function contextOf(canvas, settings = {}) {
  const context = canvas.getContext("2d", settings);
  if (context) return context;
  throw new Error("the browser gives nothing to draw on");
}

// What was found, as an element of this class.
/** @template {Element} T @param {Element} found @param {new () => T} kind @returns {T} */
function ofClass(found, kind) {
  if (found instanceof kind) return found;
  throw new Error(`<${found.tagName}> is no ${kind.name}`);
}

// The first element of a selector, of a class; it is there.
/** @template {Element} T @param {string} selector @param {new () => T} kind @param {ParentNode} within @returns {T} */
export function oneOf(selector, kind, within = document) {
  const found = within.querySelector(selector);
  if (found) return ofClass(found, kind);
  throw new Error(`the page has no '${selector}'`);
}

// All elements of a selector, of a class.
/** @template {Element} T @param {string} selector @param {new () => T} kind @param {ParentNode} within @returns {T[]} */
export const allOf = (selector, kind, within = document) => [...within.querySelectorAll(selector)].map((found) => ofClass(found, kind));

// An element with properties or attributes, and what stands in it.
/**
 * @template {keyof HTMLElementTagNameMap} K
 * @param {K} name
 * @param {Record<string, unknown>} properties
 * @param {(Node | string)[]} children
 * @returns {HTMLElementTagNameMap[K]}
 */
export function element(name, properties = {}, ...children) {
  const made = document.createElement(name);
  for (const [key, value] of Object.entries(properties)) {
    if (key in made && !key.includes("-")) Object.assign(made, { [key]: value });
    else made.setAttribute(key, String(value));
  }
  made.append(...children);
  return made;
}

/** @param {string} label @param {(event: MouseEvent) => unknown} run @param {Record<string, unknown>} properties */
export const button = (label, run, properties = {}) =>
  element("button", { type: "button", onclick: run, ...properties }, label);

// A field with its label.
/** @param {string} label @param {HTMLElement} input */
export function field(label, input) {
  return element("label", { className: "row" }, element("span", {}, label), input);
}

const CONTROLS = "button, input, select, textarea, summary, [tabindex]";

/** @param {HTMLElement} list */
const rowsOf = (list) => allOf(":scope > *", HTMLElement, list);

// Which control of a list has the focus: its row, by its `data-row` or else by its place, and the how manieth of its kind it
// is there; null where none has it.
/** @param {HTMLElement} list */
function focusIn(list) {
  const { activeElement: control } = document, rows = rowsOf(list), at = rows.findIndex((other) => other.contains(control)), row = rows[at];
  if (!row || !control) return null;
  const kind = kindOf(control), turn = ofKind(row, kind).findIndex((other) => other === control);
  return { at, row: row.dataset.row, kind, turn };
}

/** @param {{ tagName: string, type?: string, className: string }} control */
const kindOf = ({ tagName, type, className }) => `${tagName} ${type} ${className}`;

/** @param {HTMLElement} row @param {string} kind @returns {HTMLElement[]} */
const ofKind = (row, kind) => [row, ...allOf(CONTROLS, HTMLElement, row)].filter((control) => kindOf(control) === kind);

// Gives the focus to the same control of a list, or where its row is gone to that of the row in its place.
/** @param {HTMLElement} list @param {{ at: number, row: string | undefined, kind: string, turn: number }} focus */
function focusAgain(list, { at, row, kind, turn }) {
  const rows = rowsOf(list);
  const same = row === undefined ? rows[at] : rows.find((other) => other.dataset.row === row) ?? rows[Math.min(at, rows.length - 1)];
  const found = same ? ofKind(same, kind) : [];
  (found[turn] ?? found[0])?.focus({ preventScroll: true });
}

// Draws a list anew. The control that had the focus has it again, and what was unfolded stays so.
/** @param {HTMLElement} list @param {(Node | string)[]} rows */
export function redraw(list, ...rows) {
  const focus = focusIn(list), unfolded = [...list.querySelectorAll("details")].map(({ open }) => open);
  list.replaceChildren(...rows);
  list.querySelectorAll("details").forEach((details, at) => {
    details.open = unfolded[at] ?? false;
  });
  if (focus) focusAgain(list, focus);
}

// What happened, for the eye and for screen readers.
/** @param {string} text @param {boolean} isFault */
export function tell(text, isFault = false) {
  byId("told").textContent = byId("told").title = short(text, MOST_TOLD);
  byId("told").classList.toggle("fault", isFault);
}
