// Going to a place: a point that is typed, and links to a place in the page's address, with a mark there that fades.

import { BOARD, NM_PER_MM, mm, pointIn } from "../board/index.js";
import { element, field } from "./dom.js";

// The mark lasts long enough for an eye to find it, and is so large in pixels of the page.
const FADES_MS = 2500, MARK = 16;

const LINK = /^#(-?\d{1,4}(?:\.\d{1,6})?),(-?\d{1,4}(?:\.\d{1,6})?)(?:,(\d{1,8}(?:\.\d{1,4})?))?(,below)?(?:,turned(90|180|270))?$/;

// The place of a link: x and y in nm, and where it says so, the nm of a pixel of the page, whether it is seen from below, and how many
// quarters it is turned; null where it is none.
/** @param {string} hash @returns {Page.Goal | null} */
export function placeIn(hash) {
  const found = LINK.exec(hash);
  if (!found) return null;
  const x = Math.round(Number(found[1]) * NM_PER_MM), y = Math.round(Number(found[2]) * NM_PER_MM);
  const zoom = found[3] === undefined ? null : Number(found[3]);
  if (Math.abs(x) > BOARD || Math.abs(y) > BOARD || zoom === 0) return null;
  return { x, y, zoom, isMirrored: found[4] !== undefined, ...found[5] ? { quarters: Number(found[5]) / 90 } : {} };
}

// The link to a place: x and y in mm, and the nm of a pixel of the page.
/** @param {Page.Goal & { zoom: number }} goal */
export const linkOf = ({ x, y, zoom, isMirrored, quarters = 0 }) =>
  `#${mm(x)},${mm(y)},${Number(zoom.toFixed(4))}${isMirrored ? ",below" : ""}${quarters ? `,turned${90 * quarters}` : ""}`;

// The question for a point.
/** @param {Machine.State} state @param {Machine.Question} question @param {Page.Allow} allow @returns {Page.Dialogue} */
export function goQuestion({ unit }, question, allow) {
  const input = element("input", { type: "text", spellcheck: false, placeholder: "x, y", autofocus: true,
    "aria-label": `x, y in ${unit}` });
  const form = element("form", {}, field(`x, y in ${unit}`, input),
    element("p", { className: "hint" }, "Each may have its own unit, as 12.7mm, 0.5in or 20mil; one behind both is that of both."));
  input.oninput = () => allow(pointIn(input.value, unit) !== null);
  form.onsubmit = (event) => {
    event.preventDefault();
    if (pointIn(input.value, unit)) form.closest("dialog")?.close("yes");
  };
  allow(false);
  return {
    title: "Go to a point", parts: [form], choices: [["Go there", "yes"], ["Copy a link to this view", "link"], ["Cancel", "no"]],
    answer: () => ({ place: pointIn(input.value, unit) }),
  };
}

export class Going {
  /** @param {Page.Runner} machine @param {Page.View} view */
  constructor(machine, view) {
    this.machine = machine;
    this.view = view;
    // The mark: where it is, and since when. The place of a link that was read before a board was open.
    /** @type {(Board.Point & { since: number }) | null} */
    this.mark = null;
    /** @type {Page.Goal | null} */
    this.later = null;
    // Whether a link led to what is seen.
    this.isLed = false;
  }

  /** @param {string} text @param {boolean} isFault */
  say(text, isFault = false) {
    this.machine.send({ kind: "say", text, isFault });
  }

  // Shows a place in the middle of the view; at a zoom where one is given.
  /** @param {Page.Goal} goal */
  to({ x, y, zoom = null, isMirrored = this.view.isMirrored, quarters = zoom === null ? this.view.quarters : 0 }) {
    const { view } = this;
    if (zoom !== null) view.pitch = view.allowed(zoom / view.density, Math.round);
    view.mirror(isMirrored);
    if (quarters !== view.quarters) view.turnTo(quarters);
    view.centre(x, y);
    this.mark = { x, y, since: performance.now() };
  }

  // The link to what is seen now.
  link() {
    const { view } = this, { width, height } = view.canvas;
    const { x, y } = view.pointAt(width / 2, height / 2);
    return linkOf({ x: Math.round(x), y: Math.round(y), zoom: view.pitch * view.density, isMirrored: view.isMirrored,
      quarters: view.quarters });
  }

  async copyLink() {
    const url = `${location.href.replace(/#.*$/s, "")}${this.link()}`;
    try {
      await navigator.clipboard.writeText(url);
      this.say(`The link to this view is copied: ${url}`);
    } catch {
      this.say(`The browser copies nothing here; the link to this view is ${url}`, true);
    }
  }

  // Goes to the place of the page's address. It is taken out of there then, so that a page that is loaded anew shows what it showed
  // last. Where no board is open yet, it waits for one.
  read() {
    const { hash } = location;
    if (hash.length < 2) return;
    const place = placeIn(hash);
    if (!place) {
      return this.say(`The address names no place of the board (${hash}): #12.7,-25.4,10000 is 12.7, -25.4 mm at 10,000 nm a pixel.`, true);
    }
    try {
      history.replaceState(null, "", location.href.replace(/#.*$/s, ""));
    } catch {
      // A browser that lets no page change its address leaves it there.
    }
    const { layers, opened } = this.machine.state;
    this.later = layers.length + opened.length ? null : place;
    return this.lead(place);
  }

  // Goes where a link leads, and to the board where nothing of it lies there.
  /** @param {Page.Goal} place */
  lead(place) {
    this.to(place);
    this.isLed = true;
    this.machine.gesture({ kind: "seek" });
  }

  // Shows all where the view has none of the boxes of what is shown; whether it has not.
  /** @param {Machine.ToPage["seek"]} found */
  seek({ boxes, whole }) {
    const { isLed, view } = this;
    this.isLed = false;
    if (view.sees(boxes)) return false;
    this.mark = null;
    view.fit(whole);
    if (isLed) this.say("The link leads to a place where nothing of the board is, so all of it is shown.", true);
    return true;
  }

  // A board was opened, and is shown whole.
  opened() {
    if (this.later) this.lead(this.later);
    this.later = null;
  }

  listen() {
    window.addEventListener("hashchange", () => this.read());
    this.read();
  }

  // Over the pictures of the view; once more until the mark is gone.
  paint() {
    if (!this.mark) return;
    const { view, mark } = this, { context, density } = view, left = 1 - (performance.now() - mark.since) / FADES_MS;
    if (left <= 0) this.mark = null;
    view.paint();
    if (left <= 0) return;
    const { x, y } = view.placeOf(mark.x, mark.y), size = MARK * density;
    context.save();
    // (it fades but for those who want nothing that moves)
    context.globalAlpha = matchMedia("(prefers-reduced-motion: reduce)").matches ? 1 : left;
    context.strokeStyle = getComputedStyle(view.canvas).getPropertyValue("--ink-new");
    context.lineWidth = 2 * density;
    context.beginPath();
    context.arc(x, y, size, 0, 2 * Math.PI);
    for (const [across, down] of /** @type {const} */ ([[1, 0], [-1, 0], [0, 1], [0, -1]])) {
      context.moveTo(x + across * size * 0.5, y + down * size * 0.5);
      context.lineTo(x + across * size * 1.6, y + down * size * 1.6);
    }
    context.stroke();
    context.restore();
  }
}
