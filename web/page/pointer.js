// What the pointer does on the board: it pans, zooms and measures by itself; picking, moving, boxes and drawing become
// events of the machine. A finger pans and taps, and one that is held drags what is picked. The points of a tool snap to items.

import { Fingers } from "./fingers.js";
import { allOf, byId, tell } from "./dom.js";
import { point } from "../board/index.js";
import { Grip } from "./grips.js";
import { Snaps, takesPoints } from "./snaps.js";
import { distanceWords } from "./marks.js";
import { drawingTools, makingOf, pileSeen, shownLayers } from "../machine/index.js";

// How far the pointer may go in a click, and a finger in a tap, in pixels of the page: a hand is not still, and a finger is broader
// than a pointer.
const STILL = 4, STILL_FINGER = 10;
// How long it rests before the page looks what lies there, which reads a pixel of each picture: some frames.
const REST_MS = 60;

const toolButtons = () => allOf("[data-tool-button]", HTMLElement);

/** @param {Board.Point} at */
const whole = ({ x, y }) => ({ x: Math.round(x), y: Math.round(y) });

// The shown layers, the nearest first: where a click looks.
/** @param {Machine.State} state @param {boolean} isBelow whether they are seen from below */
export const pileOf = (state, isBelow) => pileSeen(shownLayers(state), isBelow).map(({ name }) => name).reverse();

export class Pointer {
  /** @param {Page.Runner} machine @param {Page.View} view @param {Page.Marks} marks */
  constructor(machine, view, marks) {
    this.machine = machine;
    this.view = view;
    this.marks = marks;
    // Where it is, in pixels of the canvas; and what is dragged.
    /** @type {Board.Point | null} */
    this.last = null;
    /** @type {Page.Drag | null} */
    this.drag = null;
    this.fingers = new Fingers(view, () => this.held());
    this.snaps = new Snaps(machine, view);
    this.snaps.onFound = () => this.look();
    this.resting = 0;
    /** @type {(place: Board.Point) => void} */
    this.onNet = () => {};
    this.listen(byId("marks"));
    machine.panel(({ picked, making, tool, entry }) => [picked, making, tool, entry], () => this.show());
    machine.panel(({ tool }) => [tool], ({ tool }) => this.showTool(tool));
    machine.panel(({ unit, origin }) => [unit, origin], () => { if (this.last) this.showPlace(this.last); });
    machine.panel(({ making }) => [making], ({ making }) => { byId("making").hidden = !making?.points.length; });
  }

  /** @param {MouseEvent} event */
  onCanvas(event) {
    const box = byId("marks").getBoundingClientRect(), { density } = this.view;
    return { x: (event.clientX - box.left) * density, y: (event.clientY - box.top) * density };
  }

  /** @param {Board.Point} at */
  under({ x, y }) {
    return whole(this.view.pointAt(x, y));
  }

  // The point that a tool takes: what it snaps to, or else the one under the pointer.
  /** @param {Board.Point} at @returns {Machine.Tapped} */
  taken(at) {
    const plain = this.under(at), snap = takesPoints(this.machine.state.tool) ? this.snaps.at(plain) : null;
    this.marks.signs.snap = snap;
    return snap ? { x: snap.x, y: snap.y, isSnapped: true } : plain;
  }

  // Shows what the pointer's point snaps to, with what it has of items there.
  look() {
    const { drag, last, marks } = this;
    if (!last) return;
    if (drag) this.dragOn(last);
    else if (takesPoints(this.machine.state.tool)) this.taken(last);
    else marks.signs.snap = null;
    this.show();
  }

  // Whether a point lies in the box of something picked: a drag from there moves it.
  /** @param {Board.Point} at @param {number} still */
  isOnPicked({ x, y }, still = 3) {
    const reach = still * this.view.density * this.view.pitch;
    return this.machine.state.picked.some(({ box }) => box && x >= box.left - reach && x <= box.right + reach
      && y >= box.low - reach && y <= box.high + reach);
  }

  /** @param {PointerEvent} event @returns {Page.Drag} */
  begin(event) {
    const { state } = this.machine, at = this.onCanvas(event), from = this.under(at);
    const isFinger = event.pointerType === "touch", still = isFinger ? STILL_FINGER : STILL;
    const base = { at, from, start: at, still, hasMoved: false, isAdded: event.shiftKey || event.ctrlKey };
    const isPan = event.button === 1 || event.button === 2 || state.tool === "pan";
    if (isPan) return { ...base, kind: "pan", isMenu: event.button === 2 };
    if (state.tool === "measure") return { ...base, from: this.taken(at), kind: "measure" };
    if (isFinger) return { ...base, kind: "tap" };
    if (state.tool === "net") return { ...base, kind: "net" };
    if (takesPoints(state.tool)) return { ...base, kind: "draw" };
    const grip = base.isAdded ? null : this.gripAt(at, from);
    return grip ? { ...base, kind: "grip", grip } : { ...base, kind: "box" };
  }

  // What is dragged from a place: a handle of what is picked, or all that is; null where nothing of it lies there.
  /** @param {Board.Point} at @param {Board.Point} from @param {number} still */
  gripAt(at, from, still = 3) {
    const { machine, marks, view } = this, handle = marks.signs.handleAt(at, 2 * still * view.density);
    return handle === null && !this.isOnPicked(from, still) ? null : new Grip(machine.state, handle, from, this.snaps);
  }

  /** @param {Board.Point} at */
  dragOn(at) {
    const { drag, marks, view } = this, to = this.under(at), { unit } = this.machine.state;
    if (!drag) return;
    drag.hasMoved ||= Math.hypot(at.x - drag.start.x, at.y - drag.start.y) > drag.still * view.density;
    if (!drag.hasMoved) return;
    if (drag.kind === "measure") {
      const end = this.taken(at);
      marks.measure(drag.from, end);
      tell(distanceWords(drag.from, end, unit));
    }
    if (drag.kind === "pan" || drag.kind === "tap") {
      view.pan(at.x - drag.at.x, at.y - drag.at.y);
      byId("stage").classList.add("dragging");
    } else if (drag.kind === "grip") {
      this.dragGrip(drag.grip, to);
    } else if (drag.kind === "box") {
      marks.dragged = [drag.from, to];
      tell(at.x < drag.start.x ? "picks what the box touches" : "picks what lies in the box");
    }
    drag.at = at;
  }

  // What is gripped goes with the pointer: by the grid, or to what it snaps to.
  /** @param {Grip} grip @param {Board.Point} to */
  dragGrip(grip, to) {
    const { marks, machine: { state: { unit } } } = this;
    grip.dragTo(to);
    marks.signs.snap = grip.snap;
    if (grip.isHandle) {
      marks.signs.reshaped = grip.preview;
      tell(`to ${point(grip.to.x, grip.to.y, unit)}`);
    } else {
      marks.shift = grip.shift;
      tell(`by ${point(grip.shift.x, grip.shift.y, unit)}`);
    }
  }

  // A finger is held: it drags what is picked from now on, and where nothing is that was, what lies there; else a box.
  held() {
    const { drag, machine } = this;
    if (drag?.kind !== "tap" || drag.hasMoved || machine.state.tool !== "pick") return;
    const take = () => {
      if (this.drag !== drag || drag.hasMoved) return;
      const grip = this.gripAt(drag.start, drag.from, drag.still);
      Object.assign(drag, { isHeld: true }, grip ? { kind: "grip", grip } : { kind: "box" });
      tell(grip ? "held: a drag moves it, and lifted here it lists what lies here"
        : "held: a drag picks what lies in its box");
      navigator.vibrate?.(15);
    };
    if (this.gripAt(drag.start, drag.from, drag.still)) take();
    else machine.gesture({ kind: "pickAt", ...drag.from, reach: 0, isAdded: false, pile: pileOf(machine.state, this.view.isMirrored) }).then(take);
  }

  // A click or a tap, by the tool.
  /** @param {Board.Point} at @param {Page.Drag} drag @param {boolean} isCentre */
  press(at, { isAdded = false, still }, isCentre) {
    const { machine, view } = this, { tool } = machine.state, to = this.under(at);
    if (tool === "net") this.onNet(to);
    else if (tool === "origin") this.setOrigin(this.taken(at));
    else if (drawingTools[tool]) machine.send({ kind: "point", ...this.taken(at), isCentre });
    else machine.gesture({ kind: "pickAt", ...to, reach: still * 2 * view.density * view.pitch, isAdded, pile: pileOf(machine.state, this.view.isMirrored) });
  }

  // The menu of all that lies at a place.
  /** @param {Board.Point} at */
  list(at) {
    this.machine.gesture({ kind: "pile", ...this.under(at), pile: pileOf(this.machine.state, this.view.isMirrored) });
  }

  // Lengths are shown from a point then, and another tool is not wanted any more.
  /** @param {Board.Point} at */
  setOrigin({ x, y }) {
    const { machine } = this;
    machine.send({ kind: "setting", changes: { origin: { x, y } } });
    if (machine.state.tool === "origin") machine.send({ kind: "tool", name: "pick" });
  }

  /** @param {PointerEvent} event */
  end(event) {
    const { machine, marks, drag } = this;
    if (!drag) return undefined;
    const { kind, from, hasMoved, isAdded = false } = drag;
    const at = this.onCanvas(event), to = this.under(at);
    this.drag = null;
    byId("stage").classList.remove("dragging");
    if (kind === "pan" && drag.isMenu && !hasMoved) return this.list(at);
    if (kind === "pan" || kind === "measure" || kind === "tap" && hasMoved) return undefined;
    if (kind === "net" || kind === "draw" || kind === "tap") return this.press(at, drag, event.shiftKey);
    const pile = pileOf(machine.state, this.view.isMirrored), letGo = () => this.letGo();
    marks.dragged = marks.signs.snap = null;
    if (!hasMoved) {
      letGo();
      if (drag.isHeld) this.list(at);
      else this.press(at, drag, false);
    } else if (drag.kind === "grip") {
      machine.gesture(drag.grip.gesture()).then(letGo);
    } else {
      const [left, right, low, high] = [Math.min(from.x, to.x), Math.max(from.x, to.x), Math.min(from.y, to.y),
        Math.max(from.y, to.y)];
      letGo();
      machine.gesture({ kind: "pickIn", box: { left, low, right, high }, isAdded, isTouched: at.x < drag.start.x, pile });
    }
    return undefined;
  }

  letGo() {
    this.marks.shift = this.marks.signs.reshaped = null;
    this.marks.draw();
  }

  // Lets go of what is dragged, and nothing of it is done.
  drop() {
    if (this.drag?.kind === "measure") this.marks.unmeasure(this.drag.from);
    this.drag = this.marks.dragged = this.marks.signs.snap = null;
    byId("stage").classList.remove("dragging");
    this.letGo();
  }

  // What is being drawn, with the pointer as its next point.
  show() {
    const making = makingOf(this.machine.state);
    this.marks.drawn = making && this.last ? making.preview(this.taken(this.last)) : null;
    this.view.paint();
    this.marks.draw();
  }

  /** @param {string} tool */
  showTool(tool) {
    if (!takesPoints(tool)) this.marks.signs.snap = null;
    byId("marks").dataset.tool = tool;
    for (const other of toolButtons()) other.setAttribute("aria-pressed", String(other.dataset.toolButton === tool));
    this.marks.draw();
  }

  // Asks what lies near the pointer where its point snaps to it.
  /** @param {Board.Point} at */
  lookAt(at) {
    const { drag } = this, { tool } = this.machine.state;
    if (drag?.kind === "grip") this.snaps.look(drag.grip.lookAt(this.under(at)));
    else if (takesPoints(tool)) this.snaps.look(this.under(at));
    if (takesPoints(tool)) this.show();
    if (tool === "measure" || tool === "origin") this.taken(at);
  }

  // A finger more: two of them pinch, and what one of them dragged is let go.
  /** @param {PointerEvent} event */
  putFinger(event) {
    this.fingers.put(event.pointerId, this.onCanvas(event));
    if (this.fingers.count > 1 && this.drag) this.drop();
    return this.fingers.count === 1;
  }

  // One of two fingers is lifted: the other one pans.
  /** @param {PointerEvent} event */
  liftFinger({ pointerId }) {
    const at = this.fingers.lift(pointerId);
    if (at) this.drag = { kind: "pan", at, from: this.under(at), start: at, still: STILL_FINGER, hasMoved: false };
    return at === null;
  }

  // The point under the pointer and, once it rests, what is black there.
  /** @param {Board.Point} at */
  showPlace(at) {
    const { x, y } = this.under(at), { unit, origin } = this.machine.state;
    const fromOrigin = origin ? `   from the origin ${point(x - origin.x, y - origin.y, unit)}` : "";
    byId("place").textContent = `${x} ${y} nm   ${point(x, y, unit)}${fromOrigin}`;
    clearTimeout(this.resting);
    this.resting = setTimeout(() => {
      const black = this.view.blackAt(at.x, at.y);
      byId("dark").textContent = black.length ? `black in ${black.join(", ")}` : "";
    }, REST_MS);
  }

  /** @param {HTMLElement} canvas */
  listen(canvas) {
    canvas.onpointerdown = (event) => {
      canvas.focus({ preventScroll: true });
      document.getSelection()?.removeAllRanges();
      try {
        canvas.setPointerCapture(event.pointerId);
      } catch {
        // A pointer that is gone already is not followed.
      }
      if (event.pointerType !== "touch" || this.putFinger(event)) this.drag = this.begin(event);
      // (a finger was nowhere before)
      if (event.pointerType === "touch") this.lookAt(this.last = this.onCanvas(event));
    };
    canvas.onpointermove = (event) => {
      const at = this.onCanvas(event);
      this.last = at;
      if (!this.fingers.move(event.pointerId, at) && this.drag) this.dragOn(at);
      if (this.drag?.hasMoved) this.fingers.rest();
      this.lookAt(at);
      this.showPlace(at);
      this.marks.follow(at, this.drag ? this.drag.kind === "pan" || this.drag.kind === "tap" : !takesPoints(this.machine.state.tool));
    };
    canvas.onpointerup = (event) => {
      this.last = this.onCanvas(event);
      if (this.liftFinger(event) && this.drag) this.end(event);
    };
    canvas.onpointercancel = (event) => {
      this.fingers.lift(event.pointerId);
      this.drop();
    };
    canvas.onpointerleave = () => {
      this.marks.pointer = null;
      this.view.paint();
    };
    canvas.ondblclick = () => this.machine.send({ kind: "endMaking" });
    canvas.oncontextmenu = (event) => event.preventDefault();
    canvas.addEventListener("wheel", (event) => {
      event.preventDefault();
      const { x, y } = this.onCanvas(event), lines = event.deltaMode === 1 ? 30 : 1;
      this.view.zoom(Math.exp(-event.deltaY * lines * 0.0018), x, y);
    }, { passive: false });
  }
}
