// The tabs of the boards of this window, and the list of all boards of the browser, from which the others are opened or taken over.

import { button, byId, element, redraw } from "./dom.js";
import { act } from "./actions.js";
import { nameOf, plural, titleOf } from "../board/index.js";

// The list looks again so often while it is open: a window that was killed says nothing.
const AGAIN_MS = 1000;

export class BoardsPanel {
  /** @param {Page.Runner} machine @param {import("./boards.js").Boards} boards */
  constructor(machine, boards) {
    this.machine = machine;
    this.boards = boards;
    this.timer = 0;
    this.drawn = "";
    byId("boards").onclose = () => clearInterval(this.timer);
    machine.panel(({ layers }) => [layers.map(({ file, label }) => file ?? label).join("\n")], () => this.draw());
  }

  nameAction() {
    act("boards", "Files", "All boards of this browser", [], () => this.open());
  }

  open() {
    clearInterval(this.timer);
    this.timer = setInterval(() => this.boards.refresh(), AGAIN_MS);
    this.boards.refresh();
    byId("boards").showModal();
  }

  /** @param {Page.Board} board */
  titleOf(board) {
    const { boards: { shown }, machine } = this;
    return nameOf(board === shown ? { ...board, title: titleOf(machine.state) } : board);
  }

  // Does something with a board of the list, which is closed for that.
  /** @param {string} label @param {string} title @param {() => unknown} run */
  choice(label, title, run) {
    return button(label, () => {
      byId("boards").close();
      run();
    }, { "aria-label": `${label} ${title}` });
  }

  /** @param {string} key @param {string} title @param {string} where @param {Node[]} choices */
  row(key, title, where, ...choices) {
    return element("li", { "data-row": key }, element("b", {}, title), element("small", {}, where), ...choices);
  }

  rows() {
    const { boards, boards: { list, others, shown } } = this;
    return [...list.map((board) => {
      const title = this.titleOf(board);
      if (board === shown) return this.row(board.key, title, "in this window, shown");
      return this.row(board.key, title, "in this window", this.choice("show", title, () => boards.show(board)));
    }), ...others.map((listing) => {
      const { key, isHeld, isFound } = listing, title = nameOf(listing);
      if (isHeld) return this.row(key, title, "open in another window", this.choice("take over", title, () => boards.takeOver(key)));
      return this.row(key, title, isFound ? "kept, and in no list: it was found" : "not open", this.choice("open", title, () => boards.adopt(key)));
    })];
  }

  draw() {
    const { boards, boards: { list, others, shown } } = this;
    byId("tabs").hidden = list.length < 2;
    redraw(byId("tabs"), ...list.map((board) => {
      const title = this.titleOf(board);
      return button(title, () => boards.show(board), { role: "tab", "aria-selected": String(board === shown), "data-row": board.key, title });
    }));
    const more = byId("more-boards");
    more.hidden = others.length === 0;
    more.textContent = `boards: ${plural(others.length, "other")}`;
    more.removeAttribute("aria-label");
    // (a row that is drawn again while it is pressed hears nothing of it)
    const rows = this.rows(), now = rows.map((row) => `${row.dataset.row} ${row.textContent}`).join("\n");
    if (now !== this.drawn) redraw(byId("boards-list"), ...rows);
    this.drawn = now;
  }
}
