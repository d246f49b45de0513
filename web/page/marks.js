// What lies over the pictures: rulers along the edges, the outlines of what is picked, what is being drawn or measured,
// and the box that is dragged.

import { LINE, Outlines, shapeOf, stroke } from "./outlines.js";
import { Signs } from "./signs.js";
import { lengthText } from "../board/index.js";
import { RulerStrips, rulers } from "./rulers.js";

/** @param {Board.Point} from @param {Board.Point} to @param {string} unit */
export function distanceWords(from, to, unit = "mm") {
  const dx = to.x - from.x, dy = to.y - from.y;
  /** @param {number} value */
  const sign = (value) => (value < 0 ? "" : "+") + lengthText(value, unit);
  // Counterclockwise from the right.
  const angle = dx || dy ? `  angle ${(Math.atan2(dy, dx) * 180 / Math.PI).toFixed(3)}°` : "";
  return `${lengthText(Math.hypot(dx, dy), unit)} ${unit}   dx ${sign(dx)}  dy ${sign(dy)}${angle}`;
}

export class Marks {
  // They are painted over the pictures of a view.
  /** @param {HTMLElement} board @param {Page.View} view @param {Page.Runner} machine */
  constructor(board, view, machine) {
    this.board = board;
    this.view = view;
    this.machine = machine;
    this.canvas = view.canvas;
    this.context = view.context;
    this.outlines = new Outlines(view, machine);
    this.signs = new Signs(view, machine);
    this.strips = new RulerStrips(view);
    view.gliding.onFollow = () => this.strips.show(machine.state, this.pointer, this.colour);
    view.gliding.onRest = () => this.strips.hide();
    // The pointer in device pixels; what is dragged over: [from, to] in nm; how far what is picked is dragged; what is
    // measured; the words of an item that is being drawn.
    /** @type {Board.Point | null} */
    this.pointer = null;
    /** @type {[from: Board.Point, to: Board.Point] | null} */
    this.dragged = null;
    /** @type {Board.Point | null} */
    this.shift = null;
    /** @type {[from: Board.Point, to: Board.Point][]} */
    this.measures = [];
    /** @type {string | null} */
    this.drawn = null;
    /** @type {Page.Ink} */
    this.colour = () => "";
  }

  draw() {
    this.view.paint();
  }

  // A measure next to those that stand, or the other end of the one that began at this very point.
  /** @param {Board.Point} from @param {Board.Point} to */
  measure(from, to) {
    const last = this.measures.at(-1);
    if (last?.[0] === from) last[1] = to;
    else this.measures.push([from, to]);
  }

  // Forgets the one that began at a point.
  /** @param {Board.Point} from */
  unmeasure(from) {
    this.measures = this.measures.filter(([start]) => start !== from);
  }

  // Forgets all that was measured; whether there was any.
  forget() {
    const isAny = this.measures.length > 0;
    this.measures = [];
    if (isAny) this.draw();
    return isAny;
  }

  // The pointer is elsewhere. While the view moves on, its marks on the rulers follow it, and all else stays as it is painted.
  /** @param {Board.Point} at @param {boolean} isAlone whether nothing but these marks goes with it */
  follow(at, isAlone) {
    this.pointer = at;
    if (isAlone && this.view.isMoving && this.view.gliding.hasMoved) this.view.wake();
    else this.view.paint();
  }

  paint() {
    const { context, view, outlines } = this, style = getComputedStyle(this.board);
    this.colour = (name) => style.getPropertyValue(name);
    view.fromAbove();
    context.globalAlpha = 1;
    this.signs.paintBelow(this.colour);
    outlines.paint(this.shift, this.colour);
    if (this.drawn) {
      stroke(context, view, shapeOf(this.drawn, null, outlines.entriesOf()), { x: 0, y: 0 }, this.colour("--ink-new"), LINE * view.density);
    }
    context.setTransform(1, 0, 0, 1, 0, 0);
    if (this.dragged) this.box(...this.dragged);
    for (const measure of this.measures) this.line(...measure);
    this.signs.paint(this);
    rulers(view, this.machine.state, this.pointer, this.colour);
  }

  /** @param {Board.Point} from @param {Board.Point} to */
  box(from, to) {
    const { context, view } = this;
    const a = view.placeOf(from.x, from.y), b = view.placeOf(to.x, to.y);
    context.strokeStyle = this.colour("--ink-picked");
    context.lineWidth = view.density;
    // Dashed where it picks what it touches.
    if (b.x < a.x) context.setLineDash([4 * view.density, 3 * view.density]);
    context.strokeRect(Math.min(a.x, b.x), Math.min(a.y, b.y), Math.abs(b.x - a.x), Math.abs(b.y - a.y));
    context.setLineDash([]);
  }

  /** @param {Board.Point} from @param {Board.Point} to */
  line(from, to) {
    const { context, view } = this;
    const a = view.placeOf(from.x, from.y), b = view.placeOf(to.x, to.y);
    context.strokeStyle = context.fillStyle = this.colour("--ink-new");
    context.lineWidth = 1.5 * view.density;
    context.beginPath();
    context.moveTo(a.x, a.y);
    context.lineTo(b.x, b.y);
    context.stroke();
    this.label(distanceWords(from, to, this.machine.state.unit), b.x + 10 * view.density, b.y - 10 * view.density);
  }

  /** @param {string} text @param {number} x @param {number} y */
  label(text, x, y) {
    const { context, view } = this;
    context.font = `${12 * view.density}px ui-monospace, "DejaVu Sans Mono", monospace`;
    const width = context.measureText(text).width, height = 12 * view.density;
    const at = Math.min(x, this.canvas.width - width - 6 * view.density);
    context.fillStyle = this.colour("--panel");
    context.fillRect(at - 3, y - height, width + 6, height * 1.35);
    context.fillStyle = this.colour("--text");
    context.fillText(text, at, y);
  }
}
