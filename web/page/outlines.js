// The outlines of what is picked. Each is made once into a path; where they are long, they are drawn once into a picture, which
// moves with the view and is drawn anew when the view rests.

import { itemOf, outlineOf } from "../board/index.js";

// Of many items so many are outlined, which are enough to see.
const MOST = 2000;
// Words of so many letters in all are long: their outlines are not stroked anew with each frame.
const LONG = 50000;
// Pixels of the picture beyond each edge of the view, so that it still covers a view that moved a little; and the ms after which
// it is looked at again whether the view rests, some frames.
const MARGIN = 256, AGAIN_MS = 60;

// An outline's line in pixels, and that of long ones: up to one pixel a browser draws it many times as quickly.
export const LINE = 1.5;
const THIN = 1;

const NOWHERE = { x: 0, y: 0 };

// The path of an item in nm and the width that it strokes, by the apertures or tools of its layer.
/** @param {string | undefined} words @param {Board.Box | null} box @param {Board.Entry[] | undefined} entries */
export const shapeOf = (words, box, entries) =>
  outlineOf(itemOf(words ?? ""), box, (wanted) => entries?.find(({ number }) => number === wanted) ?? null);

// Strokes a shape that is shifted by some nm, in a frame as it is seen from above: { left, top, pitch }, by a line of so many pixels.
/**
 * @param {Board.Context | OffscreenCanvasRenderingContext2D} context
 * @param {{ left: number, top: number, pitch: number }} frame
 * @param {Board.Outline} shape
 * @param {Board.Point} shift
 * @param {string} ink
 * @param {number} line
 */
export function stroke(context, { left, top, pitch }, { path, width }, shift, ink, line) {
  const scale = 1 / pitch;
  context.save();
  context.transform(scale, 0, 0, -scale, (shift.x - left) * scale, (top - shift.y) * scale);
  context.lineCap = context.lineJoin = "round";
  context.strokeStyle = ink;
  if (width * scale > 3) {
    context.globalAlpha = 0.55;
    context.lineWidth = width;
    context.stroke(path);
    context.globalAlpha = 1;
  }
  context.lineWidth = line / scale;
  context.stroke(path);
  context.restore();
}

export class Outlines {
  /** @param {Page.View} view @param {Page.Runner} machine */
  constructor(view, machine) {
    this.view = view;
    this.machine = machine;
    // The shape of each item that is picked, with the entries that it was made by; and the picture of long ones.
    /** @type {WeakMap<Machine.Picked, Board.Outline & { entries: Board.Entry[] | undefined }>} */
    this.shapes = new WeakMap();
    /** @type {Page.OutlineSheet | null} */
    this.sheet = null;
    this.timer = 0;
  }

  // The apertures or tools of a layer, as far as the page knows them.
  entriesOf(name = this.machine.state.active) {
    return name === null ? undefined : this.machine.state.entries[name];
  }

  /** @param {Machine.Picked} item */
  shapeOf(item) {
    const entries = this.entriesOf(item.name), known = this.shapes.get(item);
    if (known?.entries === entries && known) return known;
    const shape = { ...shapeOf(item.words, item.box, entries), entries };
    this.shapes.set(item, shape);
    return shape;
  }

  /** @param {Board.Point | null} shift @param {Page.Ink} colour */
  paint(shift, colour) {
    const { view } = this, items = this.machine.state.picked.slice(0, MOST);
    if (!items.length) {
      this.sheet = null;
      return;
    }
    const isLong = items.reduce((sum, { words }) => sum + words.length, 0) > LONG;
    /** @type {(at: Board.Point, ink: string, alpha: number) => void} */
    const draw = isLong ? (at, ink, alpha) => this.drawSheet(items, at, colour(ink), alpha)
      : (at, ink) => this.strokeAll(view.context, view, items, at, colour(ink));
    if (shift) draw(NOWHERE, "--ink-faint", 0.5);
    draw(shift ?? NOWHERE, "--ink-picked", 1);
  }

  /**
   * @param {Board.Context} context
   * @param {Page.View} frame
   * @param {Machine.Picked[]} items
   * @param {Board.Point} shift
   * @param {string} ink
   */
  strokeAll(context, frame, items, shift, ink) {
    for (const item of items) stroke(context, frame, this.shapeOf(item), shift, ink, LINE * this.view.density);
  }

  // Draws the picture of long outlines, in one ink and fainter.
  /** @param {Machine.Picked[]} items @param {Board.Point} shift @param {string} ink @param {number} alpha */
  drawSheet(items, shift, ink, alpha) {
    const { view } = this, { context } = view;
    const { canvas, left, top, pitch } = this.renew(items, alpha === 1 ? ink : this.sheet?.ink ?? ink), scale = pitch / view.pitch;
    context.globalAlpha = alpha;
    context.imageSmoothingEnabled = scale !== 1;
    context.drawImage(canvas, Math.round((left + shift.x - view.left) / view.pitch), Math.round((view.top - top - shift.y) / view.pitch),
      canvas.width * scale, canvas.height * scale);
    context.globalAlpha = 1;
  }

  // The picture, which is drawn anew for what is picked now, and for another view once that rests.
  /** @param {Machine.Picked[]} items @param {string} ink */
  renew(items, ink) {
    const { sheet, view } = this, { left, top, pitch, width, height } = view;
    const isSame = sheet && sheet.ink === ink && sheet.items.length === items.length
      && items.every((item, at) => this.shapeOf(item) === sheet.items[at]);
    if (isSame && sheet.view.join() === [left, top, pitch, width, height].join()) return sheet;
    if (isSame && view.isMoving) {
      clearTimeout(this.timer);
      this.timer = setTimeout(() => view.paint(), AGAIN_MS);
      return sheet;
    }
    const canvas = sheet?.canvas ?? new OffscreenCanvas(1, 1), frame = { left: left - MARGIN * pitch, top: top + MARGIN * pitch, pitch };
    Object.assign(canvas, { width: width + 2 * MARGIN, height: height + 2 * MARGIN });
    for (const item of items) stroke(canvas.getContext("2d"), frame, this.shapeOf(item), NOWHERE, ink, THIN);
    return this.sheet = { canvas, ...frame, ink, items: items.map((item) => this.shapeOf(item)), view: [left, top, pitch, width, height] };
  }
}
