// What lies on the board, painted into a frame of it: the pictures of the layers, or those of a comparison, and which part of the
// board is not drawn yet.

import { isMadeShown, shownLayers } from "../machine/index.js";
import { SIDE } from "./board_view.js";
import { Edges } from "./edges.js";

/**
 * Paints what lies on the board now.
 * @param {Machine.State} state
 * @param {readonly Machine.Shown[]} pile the layers, the nearest one last
 * @param {Map<string, Page.Layered>} pictures those of the layers by their names
 * @param {Page.Colours} colours
 * @returns {Page.Painter}
 */
export function painterOf(state, pile, pictures, { board, undrawn }) {
  const drawn = boxDrawn(state, pictures), edges = isOutlined(state) ? new Edges(place) : null;
  const parts = partsOf(state, pile, pictures);
  return (context, frame) => {
    const { left, top, pitch, width, height } = frame;
    context.globalAlpha = 1;
    context.fillStyle = drawn === "all" ? board : undrawn;
    context.fillRect(0, 0, width, height);
    context.fillStyle = board;
    if (drawn && drawn !== "all" && drawn.left < drawn.right && drawn.low < drawn.top) {
      context.fillRect((drawn.left - left) / pitch, (top - drawn.top) / pitch, (drawn.right - drawn.left) / pitch,
        (drawn.top - drawn.low) / pitch);
    }
    for (const part of parts) {
      context.globalAlpha = edges ? 1 : part.opacity;
      if (edges) context.drawImage(edges.of(part, frame), 0, 0);
      else place(context, frame, part);
    }
  };
}

/**
 * The pictures that lie over one another, the nearest last.
 * @param {Machine.State} state
 * @param {readonly Machine.Shown[]} pile
 * @param {Map<string, Page.Layered>} pictures
 */
function partsOf(state, pile, pictures) {
  const { comparison } = state, { sheets, place: at } = comparison ?? {}, opacity = comparison?.kind === "two" ? 1 : 0.9;
  if (sheets) return sheets.flatMap(({ bitmaps }) => bitmaps.flatMap((bitmap) => at ? [{ ...at, bitmap, opacity }] : []));
  return (isMadeShown(state) ? [{ name: SIDE, opacity: 1 }] : pile).flatMap((shown) => {
    const picture = pictures.get(shown.name);
    return picture?.bitmap ? [{ ...picture, opacity: shown.opacity }] : [];
  });
}

// (a comparison is of pixels, and the board as it will be made is no layer)
/** @param {Machine.State} state */
const isOutlined = (state) => state.isOutlined && state.comparison === null && !isMadeShown(state);

// The box in nm that all shown layers have pictures of, or "all"; null where a layer has none yet.
/**
 * @param {Machine.State} state
 * @param {Map<string, Page.Layered>} pictures
 * @returns {"all" | { left: number, top: number, right: number, low: number } | null}
 */
function boxDrawn(state, pictures) {
  const { comparison, layers } = state;
  if (comparison?.sheets) return boxOfWindow(comparison.window ?? "");
  const names = isMadeShown(state) ? [SIDE] : shownLayers({ layers }).map(({ name }) => name);
  const shown = (comparison?.layers ? [] : names).map((name) => pictures.get(name));
  if (shown.includes(undefined)) return null;
  const boxes = shown.flatMap((picture) => picture?.bitmap ? [boxOf(picture, picture.bitmap)] : []);
  if (!boxes.length || !layers.length) return "all";
  /** @param {(...values: number[]) => number} choose @param {"left" | "top" | "right" | "low"} side */
  const of = (choose, side) => choose(...boxes.map((box) => box[side]));
  return { left: of(Math.max, "left"), top: of(Math.min, "top"), right: of(Math.min, "right"), low: of(Math.max, "low") };
}

/** @param {Page.Layered} picture @param {ImageBitmap} bitmap */
const boxOf = ({ left, top, pitch }, { width, height }) => ({ left, top, right: left + width * pitch, low: top - height * pitch });

// The box of a window in nm.
/** @param {string} window */
function boxOfWindow(window) {
  const [, left = 0, low = 0, pitch = 0, width = 0, height = 0] = window.split(" ").map(Number);
  return { left, low, right: left + width * pitch, top: low + height * pitch };
}

/**
 * A picture in which some rows are other ones; null is one that is empty.
 * @param {ImageBitmap | null} before
 * @param {ImageBitmap | null} part
 * @param {Page.Rows} rows
 * @param {{ width: number, height: number }} sides
 */
export function withRows(before, part, { from, to }, { width, height }) {
  const canvas = new OffscreenCanvas(width, height), context = canvas.getContext("2d");
  if (before) context?.drawImage(before, 0, 0);
  context?.clearRect(0, from, width, to - from);
  if (part) context?.drawImage(part, 0, from);
  return canvas.transferToImageBitmap();
}

// Draws a picture where it lies in a frame.
/** @param {Board.Context} context @param {Page.Frame} frame @param {Page.Layered} picture */
function place(context, frame, { bitmap, left, top, pitch }) {
  if (!bitmap) return;
  const scale = pitch / frame.pitch, x = (left - frame.left) / frame.pitch, y = (frame.top - top) / frame.pitch;
  context.imageSmoothingEnabled = scale < 1;
  context.drawImage(bitmap, Math.round(x), Math.round(y), Math.round(bitmap.width * scale), Math.round(bitmap.height * scale));
}
