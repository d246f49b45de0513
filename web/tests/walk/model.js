// The plain model: which item stands at which place of each layer, by what the lines of a script do. An item keeps its
// number through moves, new places, undos and redos, so the model knows whether a pick is still of the same one.

const EDITS = new Set(["insert", "delete", "move", "reorder", "aperture", "polarity", "tool", "diameter", "setattr", "dropattr"]);
const OF_ITEMS = new Set(["delete", "move", "reorder", "aperture", "polarity", "tool"]);
// As many steps as the page keeps.
export const DEPTH = 1000;

export class Model {
  constructor() {
    // The numbers of the items of each layer, in order. A step replaces the map, and never changes one.
    this.layers = new Map();
    this.done = [];
    this.undone = [];
    this.group = null;
    this.next = 0;
    this.lines = 0;
    // Counts what was done to the document, so that a state is known again: equal where all since was undone.
    this.state = 0;
    this.states = 0;
  }

  itemAt(name, place) {
    return this.layers.get(name)?.[place] ?? null;
  }

  has(item) {
    return [...this.layers.values()].some((items) => items.includes(item));
  }

  // Takes in a line that was accepted, with its reply; what it did: the items that it changed, and those that are there now.
  take(line, reply) {
    const [verb, name, ...rest] = line.trim().split(/\s+/);
    this.lines++;
    const before = this.layers;
    const touched = [];
    if (OF_ITEMS.has(verb)) touched.push(this.itemAt(name, Number(rest[0])));
    if (EDITS.has(verb)) this.edit(verb, name, rest);
    else if (verb === "load") this.load(name, Number(reply.split(" ")[1]));
    else if (verb === "begin") this.group = { ...this.whole(), hasEdits: false };
    else if (verb === "end") this.end();
    else if (verb === "abort") this.abort();
    else if (verb === "undo") this.step(this.done, this.undone);
    else if (verb === "redo") this.step(this.undone, this.done);
    return { verb, touched, fresh: this.since(before) };
  }

  // The items that are there now, and were not before.
  since(before) {
    if (before === this.layers) return [];
    const there = new Set([...before.values()].flat());
    return [...this.layers.values()].flat().filter((item) => !there.has(item));
  }

  whole() {
    return { layers: this.layers, state: this.state };
  }

  load(name, count) {
    this.layers = new Map([...this.layers, [name, Array.from({ length: count }, () => this.next++)]]);
    [this.done, this.undone] = [[], []];
    this.state = ++this.states;
  }

  edit(verb, name, [at, to]) {
    const before = this.whole();
    const items = [...this.layers.get(name)], place = Number(at);
    if (verb === "insert") items.splice(place, 0, this.next++);
    if (verb === "delete") items.splice(place, 1);
    if (verb === "reorder") items.splice(Number(to), 0, ...items.splice(place, 1));
    this.layers = new Map([...this.layers, [name, items]]);
    this.state = ++this.states;
    if (this.group) this.group.hasEdits = true;
    else this.push(before);
  }

  push(before) {
    this.done.push(before);
    this.undone = [];
    if (this.done.length > DEPTH) this.done.shift();
  }

  end() {
    const { layers, state, hasEdits } = this.group;
    this.group = null;
    if (hasEdits) this.push({ layers, state });
  }

  abort() {
    Object.assign(this, { layers: this.group.layers, state: this.group.state, group: null });
  }

  step(from, to) {
    to.push(this.whole());
    Object.assign(this, from.pop());
  }
}

// The lines of the page's script: { line, reply }, where the reply is known, that of a refused one.
export function linesOf(script) {
  return script.split("\n").filter((line) => line).map((line) => {
    const refused = /^# (refused [^:]*): (.*)$/.exec(line);
    return refused ? { line: refused[2], refused: refused[1] } : { line, refused: null };
  });
}
