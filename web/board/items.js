// The words of an item, as a script has them, taken apart: for its outline, its copies and its fields.

/** @param {string} word */
const isTurn = (word) => /^[rm](0|90|180|270)$/.test(word);

// { kind, number, points, polarity, turn, direction, segments }; null where the words are none. `points` are its control
// points in nm.
/** @param {string} text @returns {Board.Item | null} */
export function itemOf(text) {
  const words = text.trim().split(/\s+/), [kind = ""] = words, number = Number(words[1]);
  if (kind === "hit") return { kind, number, points: [pairAt(words, 2)] };
  if (kind === "rout") return { kind, number, points: wayOf(words) };
  if (kind === "region") return regionOf(words);
  const last = LAST.get(kind) ?? words.length, how = words[last], polarity = words[last + 1];
  if (how === undefined || polarity === undefined) return null;
  switch (kind) {
    case "flash":
      return { kind, number, points: [pairAt(words, 2)], turn: how, polarity };
    case "draw":
      return { kind, number, points: [pairAt(words, 2), pairAt(words, 4)], turn: how, polarity };
    case "arc":
      return { kind, number, points: [pairAt(words, 2), pairAt(words, 4), pairAt(words, 6)], direction: how, polarity };
    default:
      return null;
  }
}

/** @param {string[]} words @param {number} at @returns {Board.Pair} */
const pairAt = (words, at) => [Number(words[at]), Number(words[at + 1])];

// The points of a rout.
/** @param {string[]} words */
function wayOf(words) {
  /** @type {Board.Rout["points"]} */
  const points = [pairAt(words, 2)];
  for (let at = 4; at < words.length; at += 2) points.push(pairAt(words, at));
  return points;
}

/** @param {string[]} words @returns {Board.Region | null} */
function regionOf(words) {
  const polarity = words[1];
  if (polarity === undefined) return null;
  /** @type {Board.Segment[]} */
  const segments = [];
  let at = 4;
  for (let kind = words[at]; kind !== undefined; kind = words[at]) {
    const isLine = kind === "l";
    segments.push({ kind, to: pairAt(words, at + 1), centre: isLine ? null : pairAt(words, at + 3) });
    at += isLine ? 3 : 5;
  }
  return { kind: "region", number: null, polarity, points: [pairAt(words, 2)], segments };
}

// Where the lengths of an item end that has a turn, a direction or a polarity after them.
const LAST = new Map([["flash", 4], ["hit", 4], ["draw", 6], ["arc", 8]]);

// The words of the same item somewhere else: all that are lengths are shifted.
/** @param {string} text @param {number} dx @param {number} dy */
export function shifted(text, dx, dy) {
  const words = text.trim().split(/\s+/), [kind = ""] = words;
  // The first two say what it is, and by which aperture or in which polarity.
  const last = LAST.get(kind) ?? words.length;
  let isX = true;
  return words.map((word, at) => {
    if (at < 2 || at >= last || isTurn(word) || !/^[-+]?\d+$/.test(word)) return word;
    const moved = Number(word) + (isX ? dx : dy);
    isX = !isX;
    return String(moved);
  }).join(" ");
}

// The words of the same item with another aperture or tool.
/** @param {string} text @param {number} number */
export const renumbered = (text, number) => text.trim().split(/\s+/).map((word, at) => at === 1 ? String(number) : word).join(" ");

// The path of an item in nm, with what is stroked; `entryOf(number)` is its aperture or tool, or null.
/**
 * @param {Board.Item | null} item
 * @param {Board.Box | null} box
 * @param {(number: number) => Board.Entry | null} entryOf
 * @returns {Board.Outline}
 */
export function outlineOf(item, box, entryOf) {
  const path = new Path2D();
  /** @param {number} number */
  const widthOf = (number) => entryOf(number)?.width ?? 0;
  if (item?.kind === "draw" || item?.kind === "rout") {
    item.points.forEach(([x, y], at) => at ? path.lineTo(x, y) : path.moveTo(x, y));
    return { path, width: widthOf(item.number) };
  }
  if (item?.kind === "arc") {
    const [start, end, centre] = item.points;
    path.moveTo(...start);
    addArc(path, start, end, centre, item.direction === "cw");
    return { path, width: widthOf(item.number) };
  }
  if (item?.kind === "region") {
    let [from] = item.points;
    path.moveTo(...from);
    for (const { kind, to, centre } of item.segments) {
      if (centre) addArc(path, from, to, centre, kind === "cw");
      else path.lineTo(...to);
      from = to;
    }
    path.closePath();
    return { path, width: 0 };
  }
  if (item?.kind === "hit") {
    path.arc(...item.points[0], Math.max(1, widthOf(item.number) / 2), 0, 2 * Math.PI);
    return { path, width: 0 };
  }
  if (!box) return { path, width: 0 };
  const width = box.right - box.left, height = box.high - box.low;
  const isRound = item?.kind === "flash" && ["circle", "obround"].includes(entryOf(item.number)?.shape ?? "");
  path.roundRect(box.left, box.low, width, height, isRound ? Math.min(width, height) / 2 : 0);
  return { path, width: 0 };
}

/** @param {Path2D} path @param {Board.Pair} start @param {Board.Pair} end @param {Board.Pair} centre @param {boolean} isClockwise */
function addArc(path, [sx, sy], [ex, ey], [cx, cy], isClockwise) {
  const radius = Math.hypot(sx - cx, sy - cy);
  const start = Math.atan2(sy - cy, sx - cx);
  let end = Math.atan2(ey - cy, ex - cx);
  if (sx === ex && sy === ey) end = start + (isClockwise ? -2 : 2) * Math.PI;
  // Angles of the canvas grow the other way round where y goes up, as it does here by the view's transform.
  path.arc(cx, cy, radius, start, end, isClockwise);
}

/** @param {string} line @returns {Board.Box | null} */
export const boxOf = (line) => {
  if (!line) return null;
  const [left = NaN, low = NaN, right = NaN, high = NaN] = line.split(" ").map(Number);
  return { left, low, right, high };
};

// The box of a window, which is a line of a script.
/** @param {string} line @returns {Board.Box} */
export function boxOfWindow(line) {
  const [left = NaN, low = NaN, pitch = NaN, width = NaN, height = NaN] = line.trim().split(/\s+/).slice(1).map(Number);
  return { left, low, right: left + width * pitch, high: low + height * pitch };
}

// The apertures, blocks or tools that an answer to `entries` tells: each has a line of its kind and number, and its
// definition below. { number, words, width, height, shape, hasHole, definition }, with the width in nm that it strokes, 0 where that
// is not known, the name of its shape where that is simple, and its definition without its number.
/** @param {string[]} lines @returns {Board.Entry[]} */
export function entriesFrom(lines) {
  /** @type {Board.Entry[]} */
  const found = [];
  for (const line of lines) {
    const [, kind, number] = /^(aperture|block|tool) (\d+)/.exec(line) ?? [], last = found.at(-1);
    if (kind) found.push({ number: Number(number), words: kind === "block" ? "block" : "", width: 0, height: 0,
      shape: null, hasHole: false, definition: kind });
    else if (last) describe(last, line);
  }
  return found;
}

/** @type {Record<string, string>} */
const NAMES = { C: "circle", R: "rectangle", O: "obround" };

/** @param {Board.Entry} entry @param {string} line */
function describe(entry, line) {
  // (a macro's name has the number too)
  entry.definition += `\n${line.replace(/^(%ADD|T)\d+/, "$1").replace(`M${entry.number}*`, "M*")}`;
  const [, name, width, second, third] = /^%ADD\d+([CRO]),([\d.]+)(?:X([\d.]+))?(?:X([\d.]+))?\*%$/.exec(line) ?? [];
  const [, tool] = /^T\d+C([\d.]+)$/.exec(line) ?? [], shape = name && NAMES[name];
  /** @param {string | undefined} length */
  const short = (length) => String(Number(length));
  /** @param {string | undefined} length */
  const nm = (length) => Math.round(Number(length) * 1e6);
  if (shape) {
    entry.words = `${shape} ${short(width)}${name === "C" ? "" : ` by ${short(second)}`} mm`;
    entry.width = nm(width);
    entry.height = name === "C" ? entry.width : nm(second);
    entry.shape = shape;
    entry.hasHole = (name === "C" ? second : third) !== undefined;
  } else if (tool) {
    entry.words = `${short(tool)} mm`;
    entry.width = entry.height = nm(tool);
  } else if (line.startsWith("%ADD")) {
    entry.words = "a shape of primitives";
  }
}
