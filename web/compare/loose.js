// Items that only one of two lists has, taken apart once: for what they have in common with those of the other list.

/**
 * An item by its words.
 * @typedef {object} LooseItem
 * @property {number} place in its list
 * @property {string} item
 * @property {string} kind
 * @property {string} entry of its aperture or tool; nothing of a region and of a repeat
 * @property {string} turn of an arc its direction
 * @property {string} polarity
 * @property {string[]} points
 * @property {number} x where it begins
 * @property {number} y
 * @property {string} form the item without where it lies: two of one form are the same but for that
 */

/** @param {string[]} points @param {number} x @param {number} y of them the first */
function relative(points, x, y) {
  let form = "";
  for (let at = 2; at < points.length; at += 2) form += ` ${Number(points[at]) - x} ${Number(points[at + 1]) - y}`;
  return form;
}

/**
 * @param {number} place
 * @param {string} item
 * @param {{kind: string, entry?: string | undefined, turn?: string | undefined, polarity?: string | undefined, points: string[]}} parts
 * @returns {LooseItem}
 */
function made(place, item, { kind, entry = "", turn = "", polarity = "", points }) {
  const x = Number(points[0]), y = Number(points[1]);
  return { place, item, kind, entry, turn, polarity, points, x, y, form: `${kind} ${entry} ${turn} ${polarity}${relative(points, x, y)}` };
}

/** @param {number} place @param {string} item @param {string[]} words @returns {LooseItem} */
function looseRegion(place, item, words) {
  const x = Number(words[2]), y = Number(words[3]);
  let isX = true;
  const form = words.map((word, at) => {
    if (at < 2 || word === "l" || word === "cw" || word === "ccw") return word;
    const from = isX ? x : y;
    isX = !isX;
    return Number(word) - from;
  });
  return { place, item, kind: "region", entry: "", turn: "", polarity: words[1] ?? "", points: words.slice(2, 4), x, y, form: form.join(" ") };
}

/** @param {number} place @param {string} item @returns {LooseItem} */
function looseRepeat(place, item) {
  const [head, ...objects] = item.split("\n  "), own = objects.map((object) => looseItem(0, object)), [{ x, y } = { x: 0, y: 0 }] = own;
  return { place, item, kind: "repeat", entry: "", turn: "", polarity: "", points: [], x, y,
    form: [head, ...own.map((object) => `${object.x - x} ${object.y - y} ${object.form}`)].join("\n") };
}

/**
 * An item taken apart.
 * @param {number} place
 * @param {string} item
 * @returns {LooseItem}
 */
export function looseItem(place, item) {
  if (item.startsWith("repeat")) return looseRepeat(place, item);
  const words = item.split(" "), [kind = "", entry] = words;
  switch (kind) {
    case "flash": return made(place, item, { kind, entry, points: words.slice(2, 4), turn: words[4], polarity: words[5] });
    case "draw": return made(place, item, { kind, entry, points: words.slice(2, 6), turn: words[6], polarity: words[7] });
    case "arc": return made(place, item, { kind, entry, points: words.slice(2, 8), turn: words[8], polarity: words[9] });
    case "region": return looseRegion(place, item, words);
    default: return made(place, item, { kind, entry, points: words.slice(2) });
  }
}

/**
 * Two items that are one, changed; `parts` says what of it, nothing where it moved alone.
 * @typedef {{from: LooseItem, to: LooseItem, parts: string[]}} Joined
 */

/** What of two lists is in no change yet. */
export class Loose {
  /** @param {LooseItem[]} went @param {LooseItem[]} came */
  constructor(went, came) {
    this.went = went;
    this.came = came;
    /** @type {Joined[]} */
    this.joined = [];
  }

  /** @param {Joined[]} found */
  take(found) {
    if (!found.length) return;
    const gone = new Set(found.map(({ from }) => from)), there = new Set(found.map(({ to }) => to));
    this.went = this.went.filter((one) => !gone.has(one));
    this.came = this.came.filter((one) => !there.has(one));
    for (const one of found) this.joined.push(one);
  }
}

/**
 * Values by their keys, each list in its order.
 * @template T
 * @template K
 * @param {T[]} values
 * @param {(value: T) => K} keyOf
 * @returns {Map<K, T[]>}
 */
export function grouped(values, keyOf) {
  /** @type {Map<K, T[]>} */
  const groups = new Map();
  for (const value of values) {
    const key = keyOf(value), group = groups.get(key);
    if (group) group.push(value);
    else groups.set(key, [value]);
  }
  return groups;
}
