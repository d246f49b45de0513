// The small box next to a pointer that rests on the board: what a click would pick there, in words. It goes when the pointer moves,
// and does not cover what is under the pointer.

import { byId } from "./dom.js";
import { boxOf } from "../board/index.js";
import { drawingTools } from "../machine/index.js";
import { fewParts } from "./told_parts.js";
import { pileOf } from "./pointer.js";

// How long a pointer rests, and how far the box is from it and from the item, in pixels of the page.
const REST_MS = 500, BESIDE = 14;
// An item that covers more of the board than this is told next to the pointer.
const MOST = 0.4;

/** @typedef {{ left: number, top: number, right: number, low: number }} Area in pixels of the page, downwards */

/**
 * Where a box of some size goes that covers nothing of an area: to its right, its left, below or above, where the stage has room.
 * @param {Area} area
 * @param {Board.Point} pointer
 * @param {{ width: number, height: number }} size
 * @param {{ width: number, height: number }} stage
 * @returns {Board.Point | null} null where it has no room
 */
export function besideOf({ left, top, right, low }, pointer, { width, height }, stage) {
  const x = Math.max(0, Math.min(pointer.x, stage.width - width)), y = Math.max(0, Math.min(pointer.y, stage.height - height));
  if (width > stage.width || height > stage.height) return null;
  if (right + BESIDE + width <= stage.width) return { x: right + BESIDE, y };
  if (left - BESIDE - width >= 0) return { x: left - BESIDE - width, y };
  if (low + BESIDE + height <= stage.height) return { x, y: low + BESIDE };
  if (top - BESIDE - height >= 0) return { x, y: top - BESIDE - height };
  return null;
}

export class RestTip {
  /** @param {Page.Parts} page @param {import("./telling.js").Telling} telling */
  constructor({ machine, view, pointer }, telling) {
    this.machine = machine;
    this.view = view;
    this.pointer = pointer;
    this.telling = telling;
    this.box = byId("tip");
    this.timer = 0;
    // The rest that is told or asked for: another one has another number.
    this.number = 0;
    /** @type {Board.Point | null} */
    this.at = null;
    this.listen(byId("marks"));
    machine.panel(({ told, layers, tool, menu, comparison, questions }) => [told, layers, tool, menu, comparison, questions], () => this.hide());
  }

  /** @param {HTMLElement} board */
  listen(board) {
    board.addEventListener("pointermove", (event) => {
      const at = { x: event.clientX, y: event.clientY };
      // (a browser tells of a pointer that stands still where what is under it changes)
      if (this.at && at.x === this.at.x && at.y === this.at.y) return;
      this.hide();
      this.at = at;
      if (event.pointerType !== "touch" && event.buttons === 0) this.timer = setTimeout(() => this.rest(), REST_MS);
    });
    for (const kind of ["pointerdown", "pointerleave", "wheel"]) board.addEventListener(kind, () => this.hide(), { passive: true });
    // (Escape takes the box away, and lets go of nothing else)
    document.addEventListener("keydown", (event) => {
      const isShown = !this.box.hidden;
      this.hide();
      if (!isShown || event.key !== "Escape" || document.querySelector("dialog[open]")) return;
      event.preventDefault();
      event.stopImmediatePropagation();
    }, true);
  }

  hide() {
    clearTimeout(this.timer);
    this.number++;
    this.box.hidden = true;
  }

  // Whether something else is going on, of which a box would be in the way.
  get isBusy() {
    const { machine: { state }, pointer } = this;
    return pointer.drag !== null || state.comparison !== null || state.menu !== null || Boolean(drawingTools[state.tool])
      || document.querySelector("dialog[open]") !== null;
  }

  async rest() {
    const { machine, pointer, telling } = this, { last } = pointer, number = ++this.number;
    if (!last || this.isBusy) return;
    // (what is under way may change what lies there: it is asked for after that)
    if (machine.state.work) {
      this.timer = setTimeout(() => this.rest(), REST_MS);
      return;
    }
    /** @type {Machine.Answer<Machine.Words> | null} */
    const answer = await telling.ask("at", { ...pointer.under(last), pile: pileOf(machine.state, this.view.isMirrored) });
    if (number === this.number && answer?.found && !this.isBusy) this.show(answer.found, last);
  }

  /** @param {Machine.Words} words @param {Board.Point} last where the pointer is, in pixels of the canvas */
  show(words, last) {
    const { box, view } = this, { clientWidth: width, clientHeight: height } = byId("stage"), stage = { width, height };
    const at = { x: last.x / view.density, y: last.y / view.density }, pointed = { left: at.x, top: at.y, right: at.x, low: at.y };
    box.replaceChildren(...fewParts(words));
    box.style.left = box.style.top = "0";
    box.hidden = false;
    const size = { width: box.offsetWidth, height: box.offsetHeight }, item = this.areaOf(boxOf(words.box), at);
    const isSmall = item && item.right - item.left <= MOST * width && item.low - item.top <= MOST * height;
    const place = isSmall && besideOf(item, at, size, stage) || besideOf(pointed, at, size, stage);
    box.hidden = place === null;
    if (!place) return;
    box.style.left = `${place.x}px`;
    box.style.top = `${place.y}px`;
  }

  // The part of the stage that an item and the pointer have.
  /** @param {Board.Box | null} box @param {Board.Point} at @returns {Area | null} */
  areaOf(box, at) {
    const { view } = this, { density } = view;
    if (!box) return null;
    /** @param {number} x @param {number} y */
    const placeOf = (x, y) => {
      const place = view.placeOf(x, y);
      return { x: place.x / density, y: place.y / density };
    };
    const one = placeOf(box.left, box.low), other = placeOf(box.right, box.high);
    return { left: Math.min(one.x, other.x, at.x), right: Math.max(one.x, other.x, at.x), top: Math.min(one.y, other.y, at.y), low: Math.max(one.y, other.y, at.y) };
  }
}
