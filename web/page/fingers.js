// Fingers on the board by their numbers: two of them pinch, and one that stays where it was put is held.

// As long as a finger has to rest for the menu of a phone: a tap is over before.
const HELD_MS = 500;

export class Fingers {
  // `held` is told when the only finger is held.
  /** @param {Page.View} view @param {() => void} held */
  constructor(view, held) {
    this.view = view;
    this.held = held;
    /** @type {Map<number, Board.Point>} */
    this.places = new Map();
    /** @type {{ point: Board.Point, pitch: number, span: number } | null} */
    this.pinch = null;
    this.timer = 0;
  }

  get count() {
    return this.places.size;
  }

  /** @param {number} id @param {Board.Point} at */
  put(id, at) {
    this.rest();
    this.places.set(id, at);
    if (this.count === 1) this.timer = setTimeout(this.held, HELD_MS);
    this.pinch = this.count === 2 ? this.begin() : null;
  }

  // The only finger is held no longer.
  rest() {
    clearTimeout(this.timer);
  }

  // The point of the board between two fingers stays between them.
  begin() {
    const between = this.between();
    return between && { point: this.view.pointAt(between.x, between.y), pitch: this.view.pitch, span: between.span };
  }

  between() {
    const [one, other] = this.places.values();
    return one && other ? { x: (one.x + other.x) / 2, y: (one.y + other.y) / 2, span: Math.max(1, Math.hypot(one.x - other.x, one.y - other.y)) } : null;
  }

  // Whether the fingers pinch, of which one was moved.
  /** @param {number} id @param {Board.Point} at */
  move(id, at) {
    if (!this.places.has(id)) return false;
    this.places.set(id, at);
    const between = this.between();
    if (!this.pinch || !between) return false;
    const { point, pitch, span } = this.pinch;
    this.view.hold(point, between.x, between.y, pitch * span / between.span);
    return true;
  }

  // Where the only finger is that stays when one is lifted; null where none or several do.
  /** @param {number} id */
  lift(id) {
    this.rest();
    const isFinger = this.places.delete(id);
    this.pinch = this.count === 2 ? this.begin() : null;
    return isFinger && this.count === 1 ? [...this.places.values()][0] ?? null : null;
  }
}
