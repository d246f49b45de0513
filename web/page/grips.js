// What a drag has gripped: all that is picked, by one of its points or anywhere, or a handle of the one item that is. It goes by the
// grid, or to an item that its point snaps to.

import { handlesOf, reshaped } from "../machine/index.js";
import { pointsOf, snapped } from "../board/index.js";

// Of so many picks the points are looked at, for one that is gripped, so that a press on a large pick is answered at once.
const MOST = 200;

/** @param {Machine.Place} place */
const keyOf = ({ name, place }) => `${name} ${place}`;

export class Grip {
  // `handle` is the number of a handle, or null; `from` where the drag begins, in nm.
  /** @param {Machine.State} state @param {number | null} handle @param {Board.Point} from @param {import("./snaps.js").Snaps} snaps */
  constructor({ picked, entries, grid }, handle, from, snaps) {
    this.handle = handle;
    this.from = from;
    this.grid = grid;
    this.snaps = snaps;
    this.of = picked.map(({ id }) => id);
    this.item = picked[0];
    this.to = from;
    this.shift = { x: 0, y: 0 };
    /** @type {Page.Snap | null} */
    this.snap = null;
    this.keys = new Set(picked.map(keyOf));
    /** @type {Board.Pair | null} */
    this.point = handle === null ? this.gripped(picked.slice(0, MOST), entries) : handlesOf(this.item?.words ?? "")[handle] ?? null;
    this.words = this.item?.words ?? null;
  }

  get isHandle() {
    return this.handle !== null;
  }

  // The point of what is picked that the pointer is on, null where it is on none.
  /** @param {Machine.Picked[]} picked @param {Machine.State["entries"]} entries @returns {Board.Pair | null} */
  gripped(picked, entries) {
    const { from: { x, y }, snaps: { reach, isOn } } = this;
    if (!isOn) return null;
    const near = picked.flatMap(({ name, words }) => pointsOf(words, entries[name]))
      .map(({ at }) => ({ at, distance: Math.hypot(at[0] - x, at[1] - y) })).filter(({ distance }) => distance <= reach);
    return near.sort((one, other) => one.distance - other.distance)[0]?.at ?? null;
  }

  // Where its point is when the pointer is somewhere.
  /** @param {Board.Point} at */
  lookAt({ x, y }) {
    const { point, from } = this;
    return point ? { x: Math.round(point[0] + x - from.x), y: Math.round(point[1] + y - from.y) } : { x, y };
  }

  /** @param {Board.Point} pointer */
  dragTo(pointer) {
    const at = this.lookAt(pointer), { grid, from, point } = this;
    // What is dragged snaps to nothing of itself.
    this.snap = point ? this.snaps.at(at, (item) => this.keys.has(keyOf(item))) : null;
    if (this.handle !== null) {
      this.to = this.snap ?? { x: snapped(at.x, grid), y: snapped(at.y, grid) };
      this.words = this.item ? reshaped(this.item.words, this.handle, [this.to.x, this.to.y]) : null;
    } else {
      this.shift = this.snap && point ? { x: Math.round(this.snap.x - point[0]), y: Math.round(this.snap.y - point[1]) }
        : { x: snapped(pointer.x - from.x, grid), y: snapped(pointer.y - from.y, grid) };
    }
  }

  // The item as it becomes, to be shown; null where there is none.
  get preview() {
    return this.words && this.item ? { words: this.words, name: this.item.name } : null;
  }

  // What is done when it is let go.
  /** @returns {Machine.Gesture} */
  gesture() {
    const { of, shift, words, item } = this;
    return this.isHandle && item ? { kind: "edit", verb: "reshape", was: item.words, words, of }
      : { kind: "edit", verb: "move", dx: shift.x, dy: shift.y, of };
  }
}
