// Comparisons: layers whole, by the station's texts and items, and by pixels of pictures.

import { difference, windowOf } from "./opened.js";
import { asked } from "../station/index.js";
import { boxOf } from "./answers.js";
import { joined } from "../board/index.js";

/** @typedef {import("../bytes/index.js").Picture} Picture */
/** @typedef {import("./drawing.js").Drawing} Drawing */

// The sides of the pictures by which two layers are compared, at most: 36 million pixels, 4.5 MB for each.
const SIDE = 6000;

// Items of a layer: more than so many that differ are shown by the layer's box, since each of them is asked for its own.
const MANY = 2000;

/** @param {Uint8Array} one @param {Uint8Array} other */
const isSame = (one, other) => one.length === other.length && one.every((byte, at) => byte === other[at]);

// The canonical text of a layer now; null where the station refuses it.
/** @param {Drawing} drawing @param {string} name */
const textOf = (drawing, name) => drawing.apply(`write ${name} compared`) === 0 ? drawing.station.file : null;

// The words of all items, one text for each, with the objects of repeats.
/** @param {Drawing} drawing @param {string} name */
function itemsOf({ station }, name) {
  /** @type {string[]} */
  const items = [];
  for (const line of asked(station, `items ${name} 0 4294967295`).answer.split("\n")) {
    if (/^\s/.test(line)) items.push((items.pop() ?? "") + line);
    else if (line) items.push(line);
  }
  return items;
}

// Which items differ: those between what two lists have in common at their beginning and at their end.
/** @param {string[]} then @param {string[]} now */
function rangeOf(then, now) {
  const least = Math.min(then.length, now.length);
  let first = 0, last = 0;
  while (first < least && then[first] === now[first]) first++;
  while (last < least - first && then[then.length - 1 - last] === now[now.length - 1 - last]) last++;
  return { first, then: then.length - last, now: now.length - last };
}

/** @param {Drawing} drawing @param {string} name @param {number} first @param {number} end */
function boxesIn({ station }, name, first, end) {
  if (end - first > MANY) return [boxOf(station, `box ${name}`)];
  return Array.from({ length: end - first }, (_, at) => boxOf(station, `box ${name} ${first + at}`));
}

/** @param {Drawing} drawing @param {string} word @param {number} count */
function times(drawing, word, count) {
  let made = 0;
  while (made < count && drawing.apply(word) === 0) made++;
  return made;
}

// The pictures of the layers that the view shows, in its window.
/** @param {Drawing} drawing @returns {(Picture | null)[]} */
function picturesIn(drawing) {
  const { view } = drawing;
  return view ? view.layers.filter((layer) => !layer.isOpened).map(({ name }) => drawing.pictureIn(name, view.window)) : [];
}

// Each layer whole beside what `steps` undos make of it, and the shown ones by the pixels of the view: how many are in
// both, only then, only now. The document is as it was when this is done.
/** @param {Drawing} drawing @param {Board.Asked["compare"]} message @returns {Board.Differing} */
export function compare(drawing, { steps, colours }) {
  const names = [...drawing.layers.keys()], texts = () => names.map((name) => textOf(drawing, name));
  const now = { texts: texts(), pictures: picturesIn(drawing) };
  const taken = times(drawing, "undo", steps);
  const then = { texts: texts(), pictures: picturesIn(drawing) };
  const differing = names.filter((_, at) => {
    const one = now.texts[at], other = then.texts[at];
    return !one || !other || !isSame(one, other);
  });
  const before = differing.map((name) => ({ name, items: itemsOf(drawing, name) }));
  if (times(drawing, "redo", taken) !== taken) return { isWhole: false };
  const found = before.map(({ name, items }) => {
    /** @type {(Board.Box | null)[]} */
    const boxes = [];
    return { name, range: rangeOf(items, itemsOf(drawing, name)), boxes };
  });
  for (const { name, range, boxes } of found) boxes.push(...boxesIn(drawing, name, range.first, range.now));
  times(drawing, "undo", taken);
  for (const { name, range, boxes } of found) boxes.push(...boxesIn(drawing, name, range.first, range.then));
  const isWhole = times(drawing, "redo", taken) === taken;
  drawing.refresh();
  if (taken !== steps) return { isWhole, differing: null };
  // Where no item differs, the layer's tools, apertures or attributes do.
  const led = found.map(({ name, boxes }) => ({ name, box: joined(boxes) ?? boxOf(drawing.station, `box ${name}`) }));
  return { isWhole, differing: led, count: names.length, box: joined(led.map(({ box }) => box)),
    ...sheetsOf(drawing, then.pictures, now.pictures, colours) };
}

// The pixels of the view as pictures to be shown.
/** @param {Drawing} drawing @param {(Picture | null)[]} then @param {(Picture | null)[]} now @param {string[]} colours @returns {Board.Seeable} */
function sheetsOf(drawing, then, now, colours) {
  const { view } = drawing;
  if (!view) return { sheets: null };
  /** @type {(Board.Sheet & { colour: string })[]} */
  const sheets = colours.map((colour) => ({ colour, count: 0, bitmaps: [] }));
  now.forEach((picture, at) => {
    const before = then[at];
    if (!picture || !before) return;
    const { parts } = difference(before, picture, view.window);
    for (const [which, sheet] of sheets.entries()) {
      const part = parts[which], bitmap = part && drawing.bitmapOf(view, part.opened.picture, sheet.colour);
      sheet.count += part?.count ?? 0;
      if (bitmap) sheet.bitmaps.push(bitmap);
    }
  });
  return { sheets, window: view.window, samples: view.samples };
}

/**
 * The pixels of the view beside what `steps` undos make of them. The document is as it was when this is done.
 * @param {Drawing} drawing
 * @param {Board.Asked["compareView"]} message
 * @returns {Board.Sheets}
 */
export function compareView(drawing, { steps, colours }) {
  if (!drawing.view) return { isWhole: true, sheets: null };
  const now = picturesIn(drawing), taken = times(drawing, "undo", steps), then = picturesIn(drawing);
  const isWhole = times(drawing, "redo", taken) === taken && taken === steps;
  drawing.refresh();
  return { isWhole, ...isWhole ? sheetsOf(drawing, then, now, colours) : { sheets: null } };
}

/**
 * The pixels of the view of two layers beside one another.
 * @param {Drawing} drawing
 * @param {Board.Asked["compareTwoView"]} message
 * @returns {Board.Sheets}
 */
export function compareTwoView(drawing, { names, colours }) {
  const { view } = drawing;
  if (!view) return { isWhole: true, sheets: null };
  const [first = null, second = null] = names.map((name) => drawing.pictureIn(name, view.window));
  drawing.refresh();
  return { isWhole: true, ...sheetsOf(drawing, [first], [second], colours) };
}

// A window around boxes with a whole pitch.
/** @param {Board.Box} box */
function windowAround(box) {
  const pitch = Math.max(1, Math.ceil(Math.max(box.right - box.left, box.high - box.low) / (SIDE - 2)));
  /** @type {(low: number, high: number) => [number, number]} */
  const along = (low, high) => [Math.floor(low / pitch) * pitch, Math.ceil(high / pitch) - Math.floor(low / pitch) + 1];
  const [left, width] = along(box.left, box.right), [low, height] = along(box.low, box.high);
  return `window ${left} ${low} ${pitch} ${width} ${height}`;
}

/** @param {Board.Box | null} box @param {string} line */
function isWithin(box, line) {
  if (!box) return true;
  const { left, low, pitch, width, height } = windowOf(line);
  return box.left >= left && box.low >= low && box.right <= left + width * pitch && box.high <= low + height * pitch;
}

// What two have in both and alone, each a layer or a picture beside them: in the picture's window where one is, else in one
// around both layers, and these by their texts too. Three pictures of these names show it.
/** @param {Drawing} drawing @param {Board.Asked["compareTwo"]} message @returns {Board.Counts} */
export function compareTwo(drawing, { pair, names }) {
  const { station } = drawing, layers = pair.filter(({ isOpened }) => !isOpened);
  const box = joined(layers.map(({ name }) => boxOf(station, `box ${name}`)));
  const line = pair.map(({ name }) => drawing.opened.get(name)?.line).find((found) => found)
    ?? windowAround(box ?? { left: 0, low: 0, right: 1e6, high: 1e6 });
  const [one, other] = layers.length === 2 ? layers.map(({ name }) => textOf(drawing, name)) : [];
  const [first, second] = pair.map(({ name, isOpened }) =>
    isOpened ? drawing.opened.get(name)?.picture : drawing.pictureIn(name, line));
  drawing.refresh();
  if (!first || !second || first.width !== second.width || first.height !== second.height) return { counts: null };
  const { parts, box: where } = difference(first, second, line);
  names.forEach((name, at) => drawing.keep(name, parts[at]?.opened ?? null));
  return { counts: parts.map(({ count }) => count), box: where, window: line, isWhole: isWithin(box, line),
    isSameText: one && other ? isSame(one, other) : null };
}
