// Questions to the station, as docs/questions.md has them.

/** @typedef {import("./station.js").Station} Station */
/** @typedef {{ name: string, place: number }} Place an item by its layer's name and its place in that layer's list */
/** @typedef {{ name: string, from: number }} Part a part of a layer's items */

const text = new TextEncoder();
const words = new TextDecoder();

// The number of the refusal, or 0, and the answer's text.
/** @param {Station} station @param {string} question */
export function asked(station, question) {
  const code = station.ask(text.encode(question));
  return { code, answer: code ? "" : words.decode(station.file) };
}

/** @param {Station} station @param {string} question */
export const linesOf = (station, question) => asked(station, question).answer.split("\n").filter((line) => line);

// So many items are read at once.
const READ = 10000;

// The items of a layer in order, each in the words that `insert` takes; of a repeat, what it is.
/** @param {Station} station @param {string} name */
export function* itemsOf(station, name) {
  for (let from = 0, isMore = true; isMore; from += READ) {
    // (lines of a repeat's objects stand behind blanks)
    const items = linesOf(station, `items ${name} ${from} ${READ}`).filter((line) => line[0] !== " ");
    yield* items;
    isMore = items.length === READ;
  }
}

// The kind of an item by its words, and the number of its aperture or tool, null where it has none.
/** @param {string} item */
export function headOf(item) {
  const [kind = "", number] = item.split(" ", 2);
  return { kind, number: kind === "region" || kind === "repeat" ? null : Number(number) };
}

// The places of the items that lie in a box.
/** @param {Station} station @param {{ names: string[], box: Board.Box }} where */
export function inside(station, { names, box: { left, low, right, high } }) {
  return { places: names.flatMap((name) => linesOf(station, `in ${name} ${left} ${low} ${right} ${high}`)
    .map((line) => ({ name, place: Number(line) }))) };
}

// As many items as are listed at once: a page of the list (web/page/item_list.js).
const LISTED = 100;

// What the panels show: the layers, the items at places, null where none is, entries and attributes of layers, and a part
// of a layer's items.
/**
 * @param {Station} station
 * @param {{ places: Place[], entries: string[], attributes: string | null, list: Part | null }} shown
 */
export function look(station, { places, entries, attributes, list }) {
  const items = places.map(({ name, place }) => {
    const item = asked(station, `item ${name} ${place}`);
    if (item.code) return null;
    const [line = ""] = item.answer.split("\n"), [box = ""] = asked(station, `box ${name} ${place}`).answer.split("\n");
    return { words: line, box };
  });
  return {
    layers: linesOf(station, "layers"), items,
    entries: Object.fromEntries(entries.map((name) => [name, linesOf(station, `entries ${name}`)])),
    attributes: attributes === null ? null : { name: attributes, lines: linesOf(station, `attributes ${attributes}`) },
    list: list && { ...listed(station, list), name: list.name },
  };
}

// Lines of a repeat's objects stand behind blanks, and are none of the layer's items.
/** @param {Station} station @param {Part} part */
function listed(station, { name, from }) {
  /** @param {number} first */
  const at = (first) => linesOf(station, `items ${name} ${first} ${LISTED}`).filter((line) => line[0] !== " ");
  const found = at(from);
  return { from: found.length || from === 0 ? from : 0, words: found.length || from === 0 ? found : at(0) };
}
