// A held arrow: what is picked goes with its strokes as it goes with the pointer, and is moved once when the key is let go. So a hold is
// one move, and one step, however long it was.

import { point } from "../board/index.js";
import { tell } from "./dom.js";

export class HeldMove {
  /** @param {Page.Runner} machine @param {Page.Marks} marks */
  constructor(machine, marks) {
    this.machine = machine;
    this.marks = marks;
    // How far the strokes lead so far; null where no key is held.
    /** @type {Board.Point | null} */
    this.way = null;
  }

  // One more stroke.
  /** @param {number} dx @param {number} dy */
  stroke(dx, dy) {
    const { x, y } = this.way ?? { x: 0, y: 0 }, { marks, machine: { state: { unit } } } = this;
    this.way = marks.shift = { x: x + dx, y: y + dy };
    tell(`by ${point(this.way.x, this.way.y, unit)}`);
    marks.draw();
  }

  // The key is let go, or something else is done. What is shown of it stays until it is so.
  end() {
    const { machine, marks, way } = this;
    if (!way) return;
    this.way = null;
    machine.gesture({ kind: "edit", verb: "move", dx: way.x, dy: way.y }).then(() => {
      if (marks.shift !== way) return;
      marks.shift = null;
      marks.draw();
    });
  }

  listen() {
    const end = () => this.end();
    document.addEventListener("keyup", ({ key }) => key.startsWith("Arrow") && end());
    // (another key, and a press, are meant for what is there then)
    document.addEventListener("keydown", ({ key }) => key.startsWith("Arrow") || key === "Shift" || end(), true);
    document.addEventListener("pointerdown", end, true);
    window.addEventListener("blur", end);
    document.addEventListener("visibilitychange", end);
  }
}
