// What an empty page shows in its middle: the place to drop, and the boards that this browser keeps, each with its picture, its size
// and its date.

import { button, byId, contextOf, element, redraw } from "./dom.js";
import { iconOf } from "./icons.js";
import { isBlank, isOpening } from "../machine/index.js";
import { nameOf, plural } from "../board/index.js";

const DATE = /** @type {const} */ ({ dateStyle: "medium", timeStyle: "short" });

/** @param {number} bytes */
const sizeWords = (bytes) => bytes < 1e6 ? `${Math.max(1, Math.round(bytes / 1e3))} kB` : `${(bytes / 1e6).toFixed(1)} MB`;

export class StartPanel {
  /** @param {Page.Runner} machine @param {import("./boards.js").Boards} boards */
  constructor(machine, boards) {
    this.machine = machine;
    this.boards = boards;
    byId("drop-here").prepend(iconOf("drop") ?? "");
    // Which drawing is the last: what an earlier one has read by then is left out.
    this.number = 0;
    this.drawn = "[]";
    machine.panel((state) => [state.layers.length + state.opened.length, isOpening(state)], (state) => {
      byId("nothing").hidden = state.layers.length + state.opened.length > 0 || isOpening(state);
      this.draw();
    });
  }

  // The boards with something in them that are not shown: where each one is, and what leads to it.
  kept() {
    const { boards, boards: { list, others, shown } } = this;
    const own = list.filter((board) => board !== shown && !(board.state && isBlank(board.state))).map((board) =>
      ({ board, where: "in a tab", verb: "show", run: () => boards.show(board) }));
    const rest = others.filter(({ isBlank: isEmpty }) => !isEmpty).map((board) => board.isHeld
      ? { board, where: "in another window", verb: "take over", run: () => boards.takeOver(board.key) }
      : { board, where: "not open", verb: "open", run: () => boards.adopt(board.key) });
    return [...own, ...rest].sort((one, other) => other.board.shown - one.board.shown);
  }

  async draw() {
    const number = ++this.number;
    if (byId("nothing").hidden || !this.boards.store) return;
    const kept = this.kept(), looks = await this.boards.store.looksOf(kept.map(({ board }) => board.key));
    if (number !== this.number) return;
    byId("kept-boards").hidden = kept.length === 0;
    // (a card that is drawn again while it is pressed hears nothing of it)
    const now = JSON.stringify(kept.map(({ board, where }, at) => [board.key, nameOf(board), board.shown, where, looks[at]?.bytes, looks[at]?.face?.length]));
    if (now === this.drawn) return;
    this.drawn = now;
    redraw(byId("kept-list"), ...kept.map((one, at) => this.card(one, looks[at])));
  }

  /**
   * @param {{ board: Page.Board | Page.Listing, where: string, verb: string, run: () => unknown }} one
   * @param {{ face: Uint8Array | null, bytes: number, layers: number } | undefined} looks
   */
  card({ board, where, verb, run }, looks) {
    const { face = null, bytes = 0, layers = 0 } = looks ?? {}, title = nameOf(board), picture = element("canvas", { width: 192, height: 128, "aria-hidden": "true" });
    if (face) paintFace(picture, face);
    const date = new Date(board.shown).toLocaleString("en-GB", DATE), size = [layers ? plural(layers, "layer") : "", sizeWords(bytes)];
    const card = button("", run, { "aria-label": `${verb} ${title}, ${where}`, title: `${verb} ${title}` });
    card.append(picture, element("b", {}, title), element("small", {}, size.filter((words) => words).join(", ")), element("small", {}, date),
      element("small", {}, where));
    return element("li", { "data-row": board.key }, card);
  }
}

// A kept picture; one that cannot be read leaves its place empty.
/** @param {HTMLCanvasElement} canvas @param {Uint8Array} face */
async function paintFace(canvas, face) {
  const bitmap = await createImageBitmap(new Blob([face], { type: "image/png" })).catch(() => null);
  if (!bitmap) return;
  Object.assign(canvas, { width: bitmap.width, height: bitmap.height });
  contextOf(canvas).drawImage(bitmap, 0, 0);
  bitmap.close();
}
