// Rulers along the upper and the left edge of the board, with the unit in their corner. They count from the origin of lengths.

import { NM_PER_MM, UNITS } from "../board/index.js";
import { element } from "./dom.js";

// Pixels of the page between two marks, at least: as many as the longest words beside one take.
const APART = 70;

/** @type {readonly Page.Ruler[]} */
const RULERS = ["across", "down"];

// The least of 1, 2, 5, 10, .. that is at least so great.
/** @param {number} least */
export function roundStep(least) {
  const power = 10 ** Math.floor(Math.log10(least));
  return [1, 2, 5].map((digit) => digit * power).find((step) => step >= least * 0.999999) ?? 10 * power;
}

// The marks between two places in nm: where they are, and their words in the unit.
/** @param {number} from @param {number} to @param {number} least @param {string} unit */
export function ticks(from, to, least, unit) {
  const { nm } = UNITS[unit] ?? { nm: NM_PER_MM }, step = roundStep(least / nm);
  const decimals = Math.max(0, -Math.floor(Math.log10(step) + 1e-9)), found = [];
  for (let count = Math.ceil(from / nm / step); count * step * nm <= to; count++) {
    found.push({ at: count * step * nm, words: (count * step).toFixed(decimals) });
  }
  return found;
}

// The marks of an edge of the canvas, from its upper left corner to another one: where they are, in pixels, and their words.
/** @param {Page.View} view @param {Board.Point} end @param {"x" | "y"} axis @param {Machine.State} state */
function marksOf(view, end, axis, { unit, origin }) {
  const zero = origin?.[axis] ?? 0, from = view.pointAt(0, 0)[axis], to = view.pointAt(end.x, end.y)[axis];
  return ticks(Math.min(from, to) - zero, Math.max(from, to) - zero, APART * view.density * view.pitch, unit)
    .map(({ at, words }) => ({ at: view.placeOf(...pointOn(axis, at + zero)), words }));
}

/** @param {"x" | "y"} axis @param {number} value @returns {Board.Pair} */
const pointOn = (axis, value) => axis === "x" ? [value, 0] : [0, value];

// Paints the rulers, or one of them alone.
/**
 * @param {Page.View} view
 * @param {Machine.State} state
 * @param {Board.Point | null} pointer
 * @param {Page.Ink} colour
 * @param {Board.Context} context
 * @param {readonly Page.Ruler[]} sides
 */
export function rulers(view, state, pointer, colour, context = view.context, sides = RULERS) {
  const { density, edge } = view;
  context.font = `${10 * density}px ui-monospace, "DejaVu Sans Mono", monospace`;
  context.lineWidth = density;
  for (const side of sides) (side === "across" ? across : down)(view, state, context, colour);
  corner(view, state.unit, context, colour);
  if (pointer) pointerMarks(context, pointer, edge, colour);
}

/** @param {Page.View} view @param {Machine.State} state @param {Board.Context} context @param {Page.Ink} colour */
function across(view, state, context, colour) {
  const { canvas, edge, density } = view;
  begin(context, canvas.width, edge, colour);
  for (const { at, words } of marksOf(view, { x: canvas.width, y: 0 }, view.isTurned ? "y" : "x", state)) {
    const x = Math.round(at.x) + 0.5;
    if (x < edge) continue;
    context.moveTo(x, edge * 0.5);
    context.lineTo(x, edge);
    context.fillText(words, x + 3 * density, edge * 0.55);
  }
  context.stroke();
}

/** @param {Page.View} view @param {Machine.State} state @param {Board.Context} context @param {Page.Ink} colour */
function down(view, state, context, colour) {
  const { canvas, edge, density } = view;
  begin(context, edge, canvas.height, colour);
  for (const { at, words } of marksOf(view, { x: 0, y: canvas.height }, view.isTurned ? "x" : "y", state)) {
    const y = Math.round(at.y) + 0.5;
    if (y < edge) continue;
    context.moveTo(edge * 0.5, y);
    context.lineTo(edge, y);
    upwards(context, words, edge * 0.55, y - 3 * density);
  }
  context.stroke();
}

// An empty ruler, and the ink of its marks.
/** @param {Board.Context} context @param {number} width @param {number} height @param {Page.Ink} colour */
function begin(context, width, height, colour) {
  context.fillStyle = colour("--panel");
  context.fillRect(0, 0, width, height);
  context.fillStyle = context.strokeStyle = colour("--faint");
  context.beginPath();
}

/** @param {Board.Context} context @param {string} words @param {number} x @param {number} y */
function upwards(context, words, x, y) {
  context.save();
  context.translate(x, y);
  context.rotate(-Math.PI / 2);
  context.fillText(words, 0, 0);
  context.restore();
}

/** @param {Page.View} view @param {string} unit @param {Board.Context} context @param {Page.Ink} colour */
function corner({ density, edge }, unit, context, colour) {
  context.fillStyle = colour("--panel");
  context.fillRect(0, 0, edge, edge);
  context.fillStyle = colour("--faint");
  context.fillText(unit, 1 * density, edge * 0.65);
}

/** @param {Board.Context} context @param {Board.Point} pointer @param {number} edge @param {Page.Ink} colour */
function pointerMarks(context, { x, y }, edge, colour) {
  context.strokeStyle = colour("--ink-picked");
  context.beginPath();
  context.moveTo(x, 0);
  context.lineTo(x, edge);
  context.moveTo(0, y);
  context.lineTo(edge, y);
  context.stroke();
}

// The rulers while what is painted goes with the view: each on a canvas of its own, which stays at its edge.
export class RulerStrips {
  /** @param {Page.View} view */
  constructor(view) {
    this.view = view;
    this.strips = RULERS.map((side) => ({ side, canvas: element("canvas", { className: "ruler", hidden: true }) }));
    // What is painted on them.
    this.key = "";
    view.canvas.after(...this.strips.map(({ canvas }) => canvas));
  }

  // Paints them where anything of them is another one now.
  /** @param {Machine.State} state @param {Board.Point | null} pointer @param {Page.Ink} colour */
  show(state, pointer, colour) {
    const { view } = this, { left, top, pitch } = view, { unit, origin } = state;
    const key = [left, top, pitch, unit, origin?.x, origin?.y, pointer?.x, pointer?.y].join();
    if (key === this.key) return;
    this.key = key;
    for (const { side, canvas } of this.strips) {
      const context = this.emptied(canvas, side);
      if (context) rulers(view, state, pointer, colour, context, [side]);
    }
  }

  /** @param {HTMLCanvasElement} canvas @param {Page.Ruler} side */
  emptied(canvas, side) {
    const { view: { canvas: board, edge, density } } = this, thick = Math.ceil(edge);
    const sides = side === "across" ? { width: board.width, height: thick } : { width: thick, height: board.height };
    if (canvas.width !== sides.width || canvas.height !== sides.height) {
      Object.assign(canvas, sides);
      Object.assign(canvas.style, { width: `${sides.width / density}px`, height: `${sides.height / density}px` });
    }
    canvas.hidden = false;
    return canvas.getContext("2d");
  }

  hide() {
    this.key = "";
    for (const { canvas } of this.strips) canvas.hidden = true;
  }
}
