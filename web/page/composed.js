// The layers' pictures over each other as one, which moves with the view. It is made in bands of rows, so that a new one can be
// made a little at a time while the one before is shown.

// So many pixels of all pictures together are painted at once, so that a step ends soon after its time; and so many rows at
// least, so that many pictures do not make a band, with a bitmap of its own, of each row.
const AT_ONCE = 2e6;
const LEAST_ROWS = 16;

// Closes the bitmaps of one that is gone, but for those that another one has too.
/** @param {Page.Composing | null} sheet @param {Page.Composing | null} other */
function close(sheet, other) {
  const kept = new Set(other?.bands.map(({ bitmap }) => bitmap));
  for (const { bitmap } of sheet?.bands ?? []) if (!kept.has(bitmap)) bitmap.close();
}

/** @param {Page.Frame} one @param {Page.Frame} other */
const isSame = (one, other) => one.left === other.left && one.top === other.top && one.pitch === other.pitch && one.width === other.width
  && one.height === other.height;

export class Composed {
  constructor() {
    // The one that is shown and the one in the making: its upper left corner in nm, its pitch, its sides, and its bands.
    /** @type {Page.Composing | null} */
    this.shown = null;
    /** @type {Page.Composing | null} */
    this.making = null;
    // (made when it is needed: a browser that has none is told so before)
    /** @type {OffscreenCanvasRenderingContext2D | null} */
    this.context = null;
    // Which version of the pictures is shown or made; when it was made, and how long that took.
    this.version = 0;
    this.ended = 0;
    this.took = 0;
  }

  // Begins another one: `paint` paints a part of it, { left, top, pitch, width, height }, of so many pictures. Of the same frame the
  // bands are kept that are not touched.
  /**
   * @param {number} version
   * @param {Page.Frame} frame
   * @param {number} count
   * @param {Page.Painter} paint
   * @param {readonly Page.Touched[] | null} touched
   */
  begin(version, frame, count, paint, touched = null) {
    close(this.making, this.shown);
    const rows = Math.floor(AT_ONCE / (frame.width * Math.max(1, count))), same = this.shown && isSame(this.shown, frame) ? this.shown : null;
    this.making = { ...frame, rows: same && touched ? same.rows : Math.min(frame.height, Math.max(LEAST_ROWS, rows)), bands: [], paint,
      start: performance.now(), touched: same && touched };
    this.version = version;
  }

  // The band of the one that is shown which is the next one of that in the making too; undefined where it is made anew.
  /** @param {Page.Composing} making @param {number} height */
  keptBand({ touched, bands, rows, top, pitch }, height) {
    const above = top - bands.length * rows * pitch, low = above - height * pitch;
    // (the edges of what is painted are seen a pixel away from it)
    const isTouched = touched === null || touched.some((box) => box.top + pitch > low && box.low - pitch < above);
    return isTouched ? undefined : this.shown?.bands[bands.length];
  }

  // Makes on for so many ms.
  /** @param {number} ms */
  step(ms) {
    for (const until = performance.now() + ms; this.making;) {
      this.makeBand();
      if (performance.now() > until) return;
    }
  }

  makeBand() {
    const { making } = this;
    if (!making) return;
    const from = making.bands.length * making.rows, height = Math.min(making.rows, making.height - from);
    making.bands.push(this.keptBand(making, height) ?? { bitmap: this.bandOf(making, from, height), from });
    if (from + height < making.height) return;
    close(this.shown, making);
    this.shown = making;
    this.making = null;
    this.ended = performance.now();
    this.took = this.ended - making.start;
  }

  /** @param {Page.Composing} making @param {number} from @param {number} height */
  bandOf({ left, top, pitch, width, paint }, from, height) {
    this.context ??= new OffscreenCanvas(1, 1).getContext("2d", { alpha: false });
    if (!this.context) throw new Error("the browser has no canvas to compose on");
    const { canvas } = this.context;
    if (canvas.width !== width || canvas.height !== height) Object.assign(canvas, { width, height });
    paint(this.context, { left, top: top - from * pitch, pitch, width, height });
    return canvas.transferToImageBitmap();
  }

  // Where it lies in a view, in pixels: the first column or row, and the one behind the last.
  /** @param {Page.Frame} shown @param {{ left: number, top: number, pitch: number }} view */
  sides(shown, { left, top, pitch }) {
    /** @param {number} at */
    const column = (at) => Math.round((shown.left + at * shown.pitch - left) / pitch);
    /** @param {number} at */
    const row = (at) => Math.round((top - shown.top + at * shown.pitch) / pitch);
    return { column, row, x: column(0), right: column(shown.width), y: row(0), low: row(shown.height) };
  }

  // The boxes of a view that it does not cover: [x, y, width, height].
  /** @param {Page.Frame} view @returns {[x: number, y: number, width: number, height: number][]} */
  beside(view) {
    const { width, height } = view;
    if (!this.shown) return [[0, 0, width, height]];
    const { x, right, y, low } = this.sides(this.shown, view);
    /** @param {number} at @param {number} most */
    const within = (at, most) => Math.min(most, Math.max(0, at));
    const [from, to, above, below] = [within(x, width), within(right, width), within(y, height), within(low, height)];
    /** @type {[x: number, y: number, width: number, height: number][]} */
    const boxes = [[0, 0, width, above], [0, below, width, height - below], [0, above, from, below - above],
      [to, above, width - to, below - above]];
    return boxes.filter((box) => box[2] > 0 && box[3] > 0);
  }

  /** @param {Board.Context} context @param {Page.Frame} view */
  draw(context, view) {
    const { shown } = this, { width, height } = view;
    if (!shown) return;
    const { column, row } = this.sides(shown, view), x = column(0), across = column(shown.width) - x;
    context.imageSmoothingEnabled = shown.pitch < view.pitch;
    for (const { bitmap, from } of shown.bands) {
      const y = row(from), next = row(from + bitmap.height);
      if (next > 0 && y < height && x < width) context.drawImage(bitmap, x, y, across, next - y);
    }
  }
}
