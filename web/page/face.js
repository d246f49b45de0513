// The small picture of a board that is kept with its looks: what the view shows while all of the board is in it.

// The most pixels along its sides.
const WIDTH = 192, HEIGHT = 128;
// How much more than the board is in it.
const ROOM = 1.06;
// The view has rested for so long before a picture is taken.
const REST_MS = 400;

export class Face {
  /** @param {Page.Runner} machine @param {Page.View} view @param {(face: Uint8Array) => void} keep */
  constructor(machine, view, keep) {
    this.machine = machine;
    this.view = view;
    this.keep = keep;
    this.timer = 0;
    // What was seen when the last one was taken.
    this.taken = "";
  }

  // The view was painted: a picture is taken as soon as it rests.
  painted() {
    clearTimeout(this.timer);
    this.timer = setTimeout(() => this.take(), REST_MS);
  }

  async take() {
    const { machine, view } = this, { kept, state } = machine;
    const { fitted } = view, now = `${kept?.key} ${view.composed.version} ${view.left} ${view.top} ${view.pitch}`;
    if (!fitted || !view.isSettled || view.isEmpty || state.comparison || now === this.taken) return;
    this.taken = now;
    // (a browser that makes none of it leaves the one before)
    const face = await this.picture(fitted).catch(() => null);
    if (face && machine.kept === kept) this.keep(face);
  }

  // The board as it is seen, with a little room around it and without rulers and marks, as PNG.
  /** @param {Board.Box} box */
  async picture({ left, right, low, high }) {
    const { view } = this, { width, height } = view.canvas, one = view.placeOf(left, high), other = view.placeOf(right, low);
    const across = Math.abs(other.x - one.x) * ROOM, down = Math.abs(other.y - one.y) * ROOM;
    const scale = Math.min(WIDTH / across, HEIGHT / down), whole = new OffscreenCanvas(width, height);
    view.paintInto(whole.getContext("2d"));
    const canvas = new OffscreenCanvas(Math.ceil(across * scale), Math.ceil(down * scale)), context = canvas.getContext("2d");
    context.imageSmoothingQuality = "high";
    context.scale(scale, scale);
    context.drawImage(whole, (across - one.x - other.x) / 2, (down - one.y - other.y) / 2);
    return new Uint8Array(await (await canvas.convertToBlob({ type: "image/png" })).arrayBuffer());
  }
}
