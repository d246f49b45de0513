// The look that shows the layers by the edges of what they paint, so that what lies under a large surface is seen.

import { act, press } from "./actions.js";

/** @param {Page.Parts} page */
export function nameEdges({ machine, view }) {
  act("edges", "View", "Outline: items by their edges, or filled", ["Shift+l"],
    () => machine.send({ kind: "setting", changes: { isOutlined: !machine.state.isOutlined } }));
  machine.panel(({ isOutlined }) => [isOutlined], ({ isOutlined }) => {
    press("edges", isOutlined);
    view.change();
  });
}

/** The four sides on which a pixel inside has others of its picture. */
const SIDES = /** @type {const} */ ([[1, 0], [-1, 0], [0, 1], [0, -1]]);

// Edges of pictures: what is painted, without the pixels that have a painted one at each side.
export class Edges {
  /** @param {(context: Board.Context, frame: Page.Frame, picture: Page.Layered) => void} place draws a picture where it lies in a frame */
  constructor(place) {
    this.place = place;
    /** @type {{ inside: OffscreenCanvasRenderingContext2D, edges: OffscreenCanvasRenderingContext2D } | null} */
    this.sheets = null;
  }

  // Two sheets of the frame's sides, which are empty.
  /** @param {Page.Frame} frame */
  emptied({ width, height }) {
    this.sheets ??= { inside: new OffscreenCanvas(1, 1).getContext("2d"), edges: new OffscreenCanvas(1, 1).getContext("2d") };
    // (a canvas whose side is set is empty)
    for (const { canvas } of Object.values(this.sheets)) Object.assign(canvas, { width, height });
    return this.sheets;
  }

  /** @param {Page.Layered} picture @param {Page.Frame} frame @returns {OffscreenCanvas} */
  of(picture, frame) {
    const { inside, edges } = this.emptied(frame), { pitch } = frame;
    this.place(inside, frame, picture);
    inside.globalCompositeOperation = "destination-in";
    for (const [across, up] of SIDES) this.place(inside, frame, { ...picture, left: picture.left + across * pitch, top: picture.top + up * pitch });
    this.place(edges, frame, picture);
    edges.globalCompositeOperation = "destination-out";
    edges.drawImage(inside.canvas, 0, 0);
    return edges.canvas;
  }
}
