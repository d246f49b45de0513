// The net that is lit: all copper that hangs together in its layers' colours, over a board that is dimmed; and a ring where
// an edit joined or cut.

import { layerOf, pileSeen } from "../machine/index.js";

// The radius of a ring in pixels of the page: wider than a pad at most zooms, so that it stands around it.
const RING = 14;

export class NetsLight {
  /** @param {Page.View} view @param {Page.Runner} machine */
  constructor(view, machine) {
    this.view = view;
    this.machine = machine;
    this.canvas = view.canvas;
    this.context = view.context;
  }

  draw() {
    this.view.paint();
  }

  // Over the pictures of the view.
  paint() {
    const { nets } = this.machine.state;
    if (nets.lit && nets.about) this.drawLit(nets.lit, nets.about);
    for (const { place } of nets.change?.places ?? []) this.ring(place);
  }

  /** @param {Machine.LitNet} lit @param {Machine.About} about */
  drawLit({ runs }, { window, shown }) {
    const { context, canvas } = this, style = getComputedStyle(canvas);
    context.globalAlpha = 0.82;
    context.fillStyle = style.getPropertyValue("--board");
    context.fillRect(0, 0, canvas.width, canvas.height);
    context.globalAlpha = 1;
    this.view.fromAbove();
    // The farthest first, so that the nearest lies over it, and holes over all.
    const pile = pileSeen(this.machine.state.layers, this.view.isMirrored).map(({ name }) => name);
    const order = [...shown.entries()].sort(([, one], [, other]) => pile.indexOf(one) - pile.indexOf(other));
    for (const [at, name] of order) {
      const its = runs[at];
      context.fillStyle = layerOf(this.machine.state, name)?.colour ?? "#ffffff";
      if (its) this.fill(its, window);
    }
    context.setTransform(1, 0, 0, 1, 0, 0);
  }

  // Each run as a bar of whole pixels, so that none is lost between two rows of the canvas.
  /** @param {Uint32Array} runs @param {Machine.About["window"]} window */
  fill(runs, { x, y, pitch, height }) {
    const { context, view } = this, { left, top } = view, size = view.pitch;
    // (a run has a row, and the columns where it begins and ends)
    const part = (/** @type {number} */ at) => /** @type {number} */ (runs[at]);
    for (let at = 0; at < runs.length; at += 3) {
      const above = (top - (y + (height - part(at)) * pitch)) / size, from = (x + part(at + 1) * pitch - left) / size;
      const low = Math.max(Math.floor(above) + 1, Math.ceil(above + pitch / size));
      const right = Math.max(Math.floor(from) + 1, Math.ceil((x + part(at + 2) * pitch - left) / size));
      if (low < 0 || above > view.height || right < 0 || from > view.width) continue;
      context.fillRect(Math.floor(from), Math.floor(above), right - Math.floor(from), low - Math.floor(above));
    }
  }

  /** @param {Machine.NetPlace | null} place */
  ring(place) {
    if (!place) return;
    const { context, view } = this, { x, y } = view.placeOf(place.x, place.y);
    context.strokeStyle = getComputedStyle(this.canvas).getPropertyValue("--ink-new");
    context.lineWidth = 2 * view.density;
    context.beginPath();
    context.arc(x, y, RING * view.density, 0, 2 * Math.PI);
    context.stroke();
  }
}
