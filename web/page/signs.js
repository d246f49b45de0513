// Signs over the board: what a point snaps to, handles of what is picked, the origin of lengths, the gap between two picks, the items
// that a table lights, and the item that a menu is about to pick.

import { LINE, shapeOf, stroke } from "./outlines.js";
import { gapLine } from "./gap_panel.js";
import { handlesOf } from "../machine/index.js";

const NOWHERE = { x: 0, y: 0 };
// Pixels of the page: signs are told apart by their shapes, and a handle is gripped as easily as a corner of a window.
const SIGN = 7, HANDLE = 4, ORIGIN = 12;
// How much of the board is dimmed while a table lights items, so that it can still be seen below them; and so many handles are
// shown at once, at most: more would cover the item.
const DIMMED = 0.6, MOST = 400;

export class Signs {
  /** @param {Page.View} view @param {Page.Runner} machine */
  constructor(view, machine) {
    this.view = view;
    this.machine = machine;
    this.context = view.context;
    // What the pointer's point snaps to; the handles of what is picked, as points in nm; the item that a handle makes of it, and the
    // one of the menu that has the focus, { words, name, box }; and the gap, { from, to }, as points.
    /** @type {Page.Snap | null} */
    this.snap = null;
    /** @type {Board.Pair[]} */
    this.handles = [];
    /** @type {Page.Previewed | null} */
    this.reshaped = null;
    /** @type {Page.Previewed | null} */
    this.listed = null;
    /** @type {Board.Gap | null} */
    this.gap = null;
    /** @type {{ items: Machine.Lit["items"], shapes: Board.Outline[] } | null} */
    this.paths = null;
    machine.panel(({ picked, tool }) => [picked, tool], ({ picked, tool }) => {
      const [item] = picked;
      this.handles = tool === "pick" && item && picked.length === 1 ? handlesOf(item.words) : [];
    });
    machine.panel(({ picked, entries, gap }) => [picked, entries, gap], (state) => {
      this.gap = gapLine(state);
      view.paint();
    });
    machine.panel(({ tables, lit, origin }) => [tables, lit, origin], () => view.paint());
  }

  // The handles that are seen, { number, x, y } in pixels of the canvas; none where they are too many.
  seenHandles() {
    const { view, handles } = this, { left, top, pitch, width, height } = view, right = left + width * pitch, low = top - height * pitch;
    const found = [];
    for (let number = 0; number < handles.length && found.length <= MOST; number++) {
      const [x, y] = /** @type {Board.Pair} */ (handles[number]);
      if (x >= left && x <= right && y >= low && y <= top) found.push({ number, ...view.placeOf(x, y) });
    }
    return found.length > MOST ? [] : found;
  }

  // The number of the handle at a place of the canvas, within so many pixels; null where none is.
  /** @param {Board.Point} at @param {number} reach */
  handleAt({ x, y }, reach) {
    const near = this.seenHandles().map((handle) => ({ ...handle, distance: Math.hypot(handle.x - x, handle.y - y) }));
    return near.filter(({ distance }) => distance <= reach).sort((one, other) => one.distance - other.distance)[0]?.number ?? null;
  }

  // Below the outlines of what is picked.
  /** @param {Page.Ink} colour */
  paintBelow(colour) {
    const { context, view } = this, lit = this.lit();
    if (lit) {
      context.setTransform(1, 0, 0, 1, 0, 0);
      context.globalAlpha = DIMMED;
      context.fillStyle = getComputedStyle(view.canvas).getPropertyValue("--board");
      context.fillRect(0, 0, view.canvas.width, view.canvas.height);
      context.globalAlpha = 1;
      view.fromAbove();
      for (const shape of this.pathsOf(lit.items, lit.entries)) stroke(context, view, shape, NOWHERE, colour("--ink-new"), LINE * view.density);
    }
    for (const item of [this.listed, this.reshaped]) {
      if (!item) continue;
      const shape = shapeOf(item.words, item.box ?? null, this.machine.state.entries[item.name]);
      stroke(context, view, shape, NOWHERE, colour("--ink-new"), 2 * LINE * view.density);
    }
  }

  // What is lit, with the apertures or tools of its layers: what items share, or what a table lights; null where nothing is.
  lit() {
    const { entries, lit, tables } = this.machine.state;
    if (lit || !tables.lit?.items) return lit;
    const { name, items } = tables.lit;
    return { items, entries: { [name]: tables.found[name]?.entries ?? entries[name] ?? [] } };
  }

  // The outlines of all lit items as one path for each width, made once.
  /** @param {Machine.Found["items"]} items @param {Record<string, Board.Entry[]>} entries */
  pathsOf(items, entries) {
    if (this.paths?.items === items) return this.paths.shapes;
    /** @type {Map<number, Board.Outline>} */
    const shapes = new Map();
    for (const { name, words, box } of items) {
      const { path, width } = shapeOf(words, box, entries[name]);
      const all = shapes.get(width)?.path ?? new Path2D();
      all.addPath(path);
      shapes.set(width, { path: all, width });
    }
    this.paths = { items, shapes: [...shapes.values()] };
    return this.paths.shapes;
  }

  // Over the outlines, in pixels of the canvas.
  /** @param {Page.Marks} marks */
  paint(marks) {
    const { machine, view, context } = this, { origin } = machine.state, { density } = view;
    context.strokeStyle = marks.colour("--ink-new");
    context.lineWidth = 1.5 * density;
    if (origin) this.cross(view.placeOf(origin.x, origin.y), ORIGIN * density);
    if (this.gap) {
      const { from, to } = this.gap;
      this.lines([[view.placeOf(...from), view.placeOf(...to)]]);
    }
    for (const at of this.seenHandles()) this.handle(marks, at, HANDLE * density);
    if (this.snap) this.snapSign(marks, this.snap);
  }

  /** @param {[from: Board.Point, to: Board.Point][]} pairs */
  lines(pairs) {
    const { context } = this;
    context.beginPath();
    for (const [from, to] of pairs) {
      context.moveTo(from.x, from.y);
      context.lineTo(to.x, to.y);
    }
    context.stroke();
  }

  /** @param {Board.Point} at @param {number} size */
  cross({ x, y }, size) {
    this.lines([[{ x: x - size, y }, { x: x + size, y }], [{ x, y: y - size }, { x, y: y + size }]]);
    this.ring({ x, y }, size / 2);
  }

  /** @param {Board.Point} at @param {number} size */
  ring({ x, y }, size) {
    this.context.beginPath();
    this.context.arc(x, y, size, 0, 2 * Math.PI);
    this.context.stroke();
  }

  /** @param {Board.Point} at @param {number} size */
  square({ x, y }, size) {
    this.context.strokeRect(x - size, y - size, 2 * size, 2 * size);
  }

  /** @param {Page.Marks} marks @param {Board.Point} at @param {number} size */
  handle(marks, at, size) {
    const { context } = this;
    context.fillStyle = marks.colour("--panel");
    context.fillRect(at.x - size, at.y - size, 2 * size, 2 * size);
    context.strokeStyle = marks.colour("--ink-picked");
    this.square(at, size);
  }

  // A sign of its own for each kind, with its word.
  /** @param {Page.Marks} marks @param {Page.Snap} snap */
  snapSign(marks, { x, y, kind }) {
    const { view, context } = this, { density } = view, at = view.placeOf(x, y), size = SIGN * density;
    context.strokeStyle = marks.colour("--ink-new");
    context.lineWidth = 2 * density;
    if (kind === "centre") this.ring(at, size);
    else if (kind === "end") this.square(at, size);
    else if (kind === "corner") this.lines([[{ x: at.x - size, y: at.y - size }, { x: at.x - size, y: at.y + size }],
      [{ x: at.x - size, y: at.y + size }, { x: at.x + size, y: at.y + size }]]);
    const half = size * 0.6;
    this.lines([[{ x: at.x - half, y: at.y - half }, { x: at.x + half, y: at.y + half }],
      [{ x: at.x - half, y: at.y + half }, { x: at.x + half, y: at.y - half }]]);
    marks.label(kind, at.x + 1.6 * size, at.y + 2.6 * size);
  }
}
