// What can be undone and redone, by the lines of the script: the same two lists that the station has, in words; and where
// all edits so far have led, to tell what is not saved.

import { plural } from "../board/index.js";

const EDITS = new Set(["insert", "delete", "move", "reorder", "aperture", "polarity", "tool", "diameter", "setattr",
  "dropattr"]);

/** @param {string} line */
export const isEdit = (line) => EDITS.has(firstWord(line));

/** @param {string} line */
export const firstWord = (line) => /\S+/.exec(line)?.[0] ?? "";

/** @param {string} line */
export const wordsOf = (line) => line.trim().split(/[ \t]+/);

// The layer that a line names behind its verb; "" where it names none, which no layer is called.
/** @param {string} line */
export const layerIn = (line) => wordsOf(line)[1] ?? "";

// Whether edits take items out and put others in their places.
/** @param {string[][]} edits */
const areInPlace = (edits) => edits.length % 2 === 0 && edits.every(([verb, layer, place], at) => at % 2 === 0 ? verb === "delete"
  : verb === "insert" && layer === edits[at - 1]?.[1] && place === edits[at - 1]?.[2]);

// A step in words, of its lines.
/** @param {string[]} lines */
export function stepWords(lines) {
  const edits = lines.filter(isEdit).map(wordsOf), [first] = edits;
  if (!first) return "nothing";
  const [verb, layer, place, ...rest] = first;
  const isSame = edits.every((words) => words[0] === verb);
  if (areInPlace(edits)) return `replace ${plural(edits.length / 2, "item")}`;
  if (edits.length > 1) return isSame ? `${verb} ${plural(edits.length, "item")}` : plural(edits.length, "edit");
  /** @param {string | undefined} text */
  const length = (text) => `${Number(text) / 1e6}`;
  switch (verb) {
    case "move": return `move ${layer} ${place} by ${length(rest[0])}, ${length(rest[1])} mm`;
    case "insert": return `insert a ${rest[0]} in ${layer}`;
    case "diameter": return `diameter of tool ${place} of ${layer}: ${length(rest[0])} mm`;
    case "setattr": return `set ${place} of ${layer}`;
    case "dropattr": return `drop ${place} of ${layer}`;
    default: return `${[verb, layer, place, ...rest].join(" ")}`;
  }
}

// Where nothing was edited yet.
/** @type {Machine.Way} */
const START = { before: null, length: 0, layer: null, step: null, functions: null };

// What an edit says of the function of its layer: the fields of the attribute, null where it is dropped; undefined where it
// says nothing of it.
/** @param {string} line */
function fieldsIn(line) {
  const [verb, , key, fields = ""] = wordsOf(line);
  if (key !== ".FileFunction") return undefined;
  return verb === "setattr" ? fields : verb === "dropattr" ? null : undefined;
}

export class Steps {
  /** @param {number} depth */
  constructor(depth) {
    this.depth = depth;
    /** @type {Machine.Step[]} */
    this.done = [];
    /** @type {Machine.Step[]} */
    this.undone = [];
    // The lines of the open group, where it began, and the step that it becomes.
    /** @type {Machine.Group | null} */
    this.open = null;
    // The last edit that is in the document, with those before it: an undo goes back on this way, another edit then leaves
    // it.
    this.at = START;
  }

  // One to go on with, while this one stays as it is.
  /** @returns {Steps} */
  copy() {
    return Object.assign(Object.create(Steps.prototype), this, { open: this.open && { ...this.open, lines: [...this.open.lines] } });
  }

  // The lines of the open group; null where none is open.
  get group() {
    return this.open?.lines ?? null;
  }

  clear() {
    this.done = [];
    this.undone = [];
    this.open = null;
  }

  // Takes in a line that the station accepted.
  /** @param {string} line */
  take(line) {
    const word = firstWord(line);
    if (EDITS.has(word)) {
      if (this.open) {
        this.open.lines.push(line);
        this.go(line, this.open.step);
      } else {
        const from = this.at;
        this.go(line, {});
        this.push([line], from);
      }
    } else if (word === "begin") {
      this.open = { lines: [], from: this.at, step: {} };
    } else if (word === "end") {
      const { open } = this;
      this.open = null;
      if (open?.lines.length) this.push(open.lines, open.from);
    } else if (word === "abort") {
      this.at = this.open?.from ?? this.at;
      this.open = null;
    } else if (word === "undo") {
      const step = this.done.at(-1);
      if (!step) return;
      this.done = this.done.slice(0, -1);
      this.undone = [...this.undone, step];
      this.at = step.from;
    } else if (word === "redo") {
      const step = this.undone.at(-1);
      if (!step) return;
      this.undone = this.undone.slice(0, -1);
      this.done = [...this.done, step];
      this.at = step.at;
    } else if (word === "load") {
      this.clear();
    }
  }

  // Goes one edit on. The edits of a group are of one step.
  /** @param {string} line @param {object} step */
  go(line, step) {
    const { at } = this, layer = layerIn(line), fields = fieldsIn(line);
    this.at = { before: at, length: at.length + 1, layer, step,
      functions: fields === undefined ? at.functions : { before: at.functions, layer, fields } };
  }

  /** @param {string[]} lines @param {Machine.Way} from */
  push(lines, from) {
    this.undone = [];
    this.done = [...this.done.slice(-(this.depth - 1)), { lines, words: stepWords(lines), from, at: this.at }];
  }

  // How many steps lie between where each layer was saved and where it is now: those made since, and those taken back.
  // `saved` has a place of the way for each layer that was saved; the others were at the start. Those of one layer, where it
  // is named.
  /** @param {Record<string, Machine.Way>} saved @param {string | null} name */
  unsaved(saved, name = null) {
    const found = new Set(), places = new Map(Object.entries(saved));
    for (const from of new Set([START, ...Object.values(saved)])) {
      for (const { layer, step } of between(from, this.at)) {
        if ((places.get(layer ?? "") ?? START) === from && (name === null || layer === name)) found.add(step);
      }
    }
    return found.size;
  }
}

// The edits of two ways that are not in both.
/** @param {Machine.Way} one @param {Machine.Way} other */
function between(one, other) {
  /** @type {Machine.Way[]} */
  const found = [];
  /** @type {Machine.Way | null} */
  let a = one;
  /** @type {Machine.Way | null} */
  let b = other;
  while (a && b && a !== b) {
    if (a.length >= b.length) {
      found.push(a);
      a = a.before;
    } else {
      found.push(b);
      b = b.before;
    }
  }
  return found;
}
