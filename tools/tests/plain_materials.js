// The materials of a side of a board pixel by pixel, as plainly as can be: what web/materials is compared with. It has the
// definition of docs/page.md, "Materials", and no code of web/.

const NAMES = ["nothing", "laminate", "mask", "mask over copper", "copper", "silkscreen", "plated wall"];

/** @typedef {import("../../web/bytes/pbm.js").Picture} Picture */
/** @typedef {{shows: string, said: string | null, picture: Picture}} Plain */

/** @param {Picture} picture @param {number} x @param {number} y */
const isBlack = ({ width, height, stride, bits }, x, y) => x >= 0 && y >= 0 && x < width && y < height
  && (bits[y * stride + (x >> 3)] >> (7 - (x & 7)) & 1) === 1;

const EDGES = [[-1, 0], [1, 0], [0, -1], [0, 1]], CORNERS = [[-1, -1], [1, -1], [-1, 1], [1, 1]];

/**
 * How many lines one crosses from outside to each pixel: 0 outside, then 1 on the outermost lines, 2 in them, 3 on lines in there ..
 * @param {Picture} outline
 */
function depths(outline) {
  const { width, height } = outline, found = new Map(), at = (x, y) => (y + 1) * (width + 2) + x + 1;
  const isThere = (x, y) => x >= -1 && y >= -1 && x <= width && y <= height;
  let next = [[-1, -1]];
  for (let depth = 0; next.length; depth++) {
    const waiting = next;
    next = [];
    while (waiting.length) {
      const [x, y] = waiting.pop(), isLine = depth % 2 === 1;
      if (found.has(at(x, y))) continue;
      found.set(at(x, y), depth);
      for (const [dx, dy] of isLine ? [...EDGES, ...CORNERS] : EDGES) {
        const [u, v] = [x + dx, y + dy];
        if (!isThere(u, v) || found.has(at(u, v))) continue;
        if (isBlack(outline, u, v) === isLine) waiting.push([u, v]);
        else if (Math.abs(dx) + Math.abs(dy) === 1) next.push([u, v]);
      }
    }
  }
  return (x, y) => found.get(at(x, y));
}

// The lines that touch board: all black pixels that hang together with one that has board at an edge.
function touching(outline, isInside) {
  const { width, height } = outline, found = new Set(), waiting = [];
  for (let y = 0; y < height; y++) {
    for (let x = 0; x < width; x++) {
      if (isBlack(outline, x, y) && EDGES.some(([dx, dy]) => isInside(x + dx, y + dy))) waiting.push([x, y]);
    }
  }
  while (waiting.length) {
    const [x, y] = waiting.pop();
    if (!isBlack(outline, x, y) || found.has(y * width + x)) continue;
    found.add(y * width + x);
    for (const [dx, dy] of [...EDGES, ...CORNERS]) waiting.push([x + dx, y + dy]);
  }
  return (x, y) => found.has(y * width + x);
}

/** @param {Picture} outline @returns {((x: number, y: number) => boolean) | null} null where no line is closed */
function within(outline) {
  const { width, height } = outline, depthOf = depths(outline), isInside = (x, y) => depthOf(x, y) % 4 === 2;
  const touches = touching(outline, isInside);
  for (let y = 0; y < height; y++) for (let x = 0; x < width; x++) if (isInside(x, y)) return (u, v) => isInside(u, v) || touches(u, v);
  return null;
}

// The box of what is black in any of the pictures.
function boxOf(pictures) {
  const { width, height } = pictures[0], xs = [], ys = [];
  for (let y = 0; y < height; y++) {
    for (let x = 0; x < width; x++) {
      if (!pictures.some((picture) => isBlack(picture, x, y))) continue;
      xs.push(x);
      ys.push(y);
    }
  }
  if (!xs.length) return null;
  const least = (list) => list.reduce((one, other) => Math.min(one, other)), most = (list) => -least(list.map((value) => -value));
  const [left, right, top, low] = [least(xs), most(xs), least(ys), most(ys)];
  return (x, y) => left <= x && x <= right && top <= y && y <= low;
}

/** @param {Plain[]} layers */
function boardOf(layers) {
  const outlines = layers.filter(({ shows }) => shows === "outline").map(({ picture }) => picture);
  const others = layers.filter(({ shows }) => !["outline", "drawing", "top-paste", "bottom-paste"].includes(shows)).map(({ picture }) => picture);
  const closed = outlines.map(within).find((found) => found);
  if (closed) return closed;
  return outlines.map((outline) => boxOf([outline])).find((found) => found) ?? (others.length ? boxOf(others) : null) ?? (() => false);
}

// The plated holes of a side: through all copper, or from this side to a layer inside.
function platedOf(layers, side) {
  const spans = layers.filter(({ shows }) => shows === "plated" || shows === "holes").map(({ said, picture }) => {
    const [, from, to] = /^\w+,(\d+),(\d+)/.exec(said ?? "") ?? [];
    return { from: Number(from ?? 1), to: to === undefined ? Infinity : Number(to), picture };
  });
  const named = layers.flatMap(({ said }) => (/^Copper,L(\d+)/.exec(said ?? "") ?? []).slice(1).map(Number));
  const lowest = Math.max(1, ...named, ...spans.map(({ to }) => (to === Infinity ? 1 : to)));
  const isThrough = ({ from, to }) => from === 1 && to >= lowest;
  const begins = ({ from, to }) => (side === "top" ? from === 1 : to >= lowest);
  const pictures = (list) => list.map(({ picture }) => picture);
  return { through: pictures(spans.filter(isThrough)), ending: pictures(spans.filter((span) => !isThrough(span) && begins(span))) };
}

/**
 * The name of each pixel's material, by rows from the top, the bottom as seen from below.
 * @param {Plain[]} layers
 * @param {"top" | "bottom"} side
 * @param {number} pitch in nm
 * @returns {string[][]}
 */
export function plainMaterials(layers, side, pitch) {
  const { width, height } = layers[0].picture, isBoard = boardOf(layers), { through, ending } = platedOf(layers, side);
  const of = (wanted) => layers.filter(({ shows }) => shows === wanted).map(({ picture }) => picture);
  const any = (pictures) => (x, y) => pictures.some((picture) => isBlack(picture, x, y));
  const isNonplated = any(of("nonplated")), isPlated = any(through), isCopper = any([...of(side), ...ending]), isPrint = any(of(`${side}-silk`));
  const masks = of(`${side}-mask`), isOpen = any(masks), wide = Math.min(16, Math.max(1, Math.round(25_000 / pitch)));
  const isWall = (x, y) => {
    for (let dy = -wide; dy <= wide; dy++) {
      for (let dx = -wide; dx <= wide; dx++) {
        const isThere = x + dx >= 0 && y + dy >= 0 && x + dx < width && y + dy < height;
        if (isThere && dx * dx + dy * dy <= wide * wide && !isPlated(x + dx, y + dy)) return true;
      }
    }
    return false;
  };
  const numberOf = (x, y) => {
    if (!isBoard(x, y)) return 0;
    if (isNonplated(x, y)) return 0;
    if (isPlated(x, y)) return isWall(x, y) ? 6 : 0;
    if (isPrint(x, y) && !isOpen(x, y)) return 5;
    if (isOpen(x, y) || !masks.length) return isCopper(x, y) ? 4 : 1;
    return isCopper(x, y) ? 3 : 2;
  };
  return Array.from({ length: height }, (_, y) => Array.from({ length: width }, (__, x) => {
    return NAMES[numberOf(side === "top" ? x : width - 1 - x, y)];
  }));
}
