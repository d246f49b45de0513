// A comparison that is shown goes with the view: where that shows another part or has another zoom, its pixels are compared again. Two
// layers are compared again where the pixels of the view are smaller than those of the window around both.

/** @param {string} window */
const pitchOf = (window) => Number(window.split(" ")[3]);

export class ComparingView {
  /** @param {Page.Runner} machine @param {Page.View} view */
  constructor(machine, view) {
    this.machine = machine;
    this.view = view;
    // The window that was tried last; and that of the comparison, since one of another window came for it where the view moved on.
    this.tried = "";
    /** @type {string | null} */
    this.found = null;
    view.onDrawn = () => this.look();
    machine.panel(({ comparison }) => [comparison], () => this.look());
  }

  look() {
    const { machine, view } = this, { comparison, work, queue } = machine.state;
    if (!comparison || comparison.window !== this.found) this.tried = "";
    this.found = comparison?.window ?? null;
    if (!comparison || !view.isWhole || view.isWanted || comparison.pair?.some(({ isOpened }) => isOpened)) return;
    const window = view.window(), isAsked = [work?.gesture, ...queue].some((gesture) => gesture?.kind === "compareView");
    // (the pictures of the window around both are shown again)
    if (comparison.pair && pitchOf(window) >= pitchOf(comparison.whole)) {
      this.tried = "";
      if (comparison.sheets) machine.send({ kind: "setting", changes: { comparison: { ...comparison, sheets: null, view: "", window: null } } });
    } else if (!isAsked && window !== comparison.window && window !== this.tried) this.compare(window);
  }

  /** @param {string} window */
  compare(window) {
    this.tried = window;
    this.machine.gesture({ kind: "compareView" });
  }
}
