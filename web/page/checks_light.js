// The measure of the finding that was clicked, on the board: a line from edge to edge with its value, or a ring where it has none.

import { mm } from "../nets/index.js";

// Pixels of the page: half of the bars at the ends of a line, a ring around a place, and how far the value stands from the line.
const BAR = 6, RING = 14, AWAY = 12, LETTERS = 12;
// Ends nearer to one another than this are shown as a place, with a ring around it.
const SHORT = 3;

export class ChecksLight {
  /** @param {Page.View} view @param {Page.Runner} machine */
  constructor(view, machine) {
    this.view = view;
    this.machine = machine;
    this.context = view.context;
  }

  paint() {
    const { led } = this.machine.state.nets;
    if (!led) return;
    const { context, view } = this, style = getComputedStyle(view.canvas);
    context.setTransform(1, 0, 0, 1, 0, 0);
    context.strokeStyle = style.getPropertyValue("--ink-new");
    context.lineWidth = 2 * view.density;
    const [one, other] = led.measure ?? [led.place, led.place], from = view.placeOf(one.x, one.y), to = view.placeOf(other.x, other.y), length = Math.hypot(to.x - from.x, to.y - from.y);
    const isLine = length >= SHORT * view.density, words = led.value === null ? "" : `${mm(led.value)} mm`;
    if (isLine) this.line(from, to, length);
    else this.ring(from);
    if (words) this.label(words, from, to, isLine ? AWAY : RING + AWAY, style);
  }

  // With a bar across each end.
  /** @param {Board.Point} from @param {Board.Point} to @param {number} length */
  line(from, to, length) {
    const { context, view } = this, bar = BAR * view.density, right = (to.y - from.y) / length * bar, down = (from.x - to.x) / length * bar;
    context.beginPath();
    context.moveTo(from.x, from.y);
    context.lineTo(to.x, to.y);
    for (const { x, y } of [from, to]) {
      context.moveTo(x - right, y - down);
      context.lineTo(x + right, y + down);
    }
    context.stroke();
  }

  /** @param {Board.Point} at */
  ring({ x, y }) {
    const { context, view } = this;
    context.beginPath();
    context.arc(x, y, RING * view.density, 0, 2 * Math.PI);
    context.stroke();
  }

  // Next to the middle of the line, on its right.
  /** @param {string} words @param {Board.Point} from @param {Board.Point} to @param {number} away @param {CSSStyleDeclaration} style */
  label(words, from, to, away, style) {
    const { context, view } = this, { density } = view, high = LETTERS * density;
    context.font = `${high}px ui-monospace, "DejaVu Sans Mono", monospace`;
    const width = context.measureText(words).width, x = Math.max(from.x, to.x) + away * density, y = (from.y + to.y) / 2 + high / 3;
    context.fillStyle = style.getPropertyValue("--panel");
    context.fillRect(x - 4 * density, y - high, width + 8 * density, high * 1.4);
    context.fillStyle = style.getPropertyValue("--text");
    context.fillText(words, x, y);
  }
}
