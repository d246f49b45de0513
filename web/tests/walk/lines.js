// Lines that a user types, at random: most of them fit the document, some do not.

import { DEPTH } from "./model.js";

const turns = ["r0", "r90", "r180", "r270", "m0", "m90"];

export class Lines {
  constructor(chance) {
    this.chance = chance;
  }

  whole(below) {
    return Math.floor(this.chance() * below);
  }

  of(list) {
    return list[this.whole(list.length)];
  }

  length() {
    return this.whole(40) * 500000 - 5000000;
  }

  polarity() {
    return this.of(["dark", "clear"]);
  }

  // A layer with its kind and the number of its items; one of none now and then.
  layer(document) {
    const layers = [...document.layers.keys()];
    return this.chance() < 0.05 || !layers.length ? "nowhere" : this.of(layers);
  }

  place(document, name) {
    const count = document.layers.get(name)?.length ?? 0;
    return this.chance() < 0.06 ? count + this.whole(3) : this.whole(Math.max(1, count));
  }

  item(isDrill) {
    const [x, y, z, w] = [this.length(), this.length(), this.length(), this.length()];
    const number = this.of([10, 10, 10, 11, 12, 13]);
    if (isDrill) return this.chance() < 0.7 ? `hit ${this.of([1, 2])} ${x} ${y}` : `rout 1 ${x} ${y} ${z} ${w}`;
    return this.of([`flash ${number} ${x} ${y} ${this.of(turns)} ${this.polarity()}`, `draw ${number} ${x} ${y} ${z} ${w} r0 ${this.polarity()}`,
      `region ${this.polarity()} ${x} ${y} l ${x + 1000000} ${y} l ${x} ${y + 1000000} l ${x} ${y}`]);
  }

  edit(document) {
    const name = this.layer(document), place = this.place(document, name), isDrill = /hole|plated|drill|drl/.test(name);
    return this.of([
      () => `move ${name} ${place} ${this.length()} ${this.length()}`,
      () => `move ${name} ${place} 5000 0`,
      () => `delete ${name} ${place}`,
      () => `insert ${name} ${place} ${this.item(isDrill)}`,
      () => `insert ${name} 0 ${this.item(isDrill)}`,
      () => `reorder ${name} ${place} ${this.place(document, name)}`,
      () => isDrill ? `tool ${name} ${place} ${this.of([1, 2, 3])}` : `polarity ${name} ${place} ${this.polarity()}`,
      () => isDrill ? `diameter ${name} 1 ${this.of([300000, 800000, 0])}` : `aperture ${name} ${place} ${this.of([10, 11, 12, 13])}`,
      () => this.of([`setattr ${name} .Part Single`, `setattr ${name} .Own a,b,${this.whole(9)}`, `dropattr ${name} .Part`]),
    ])();
  }

  // A line of any kind, by what the document has now.
  any(document) {
    const inGroup = document.group !== null;
    return this.of([
      () => this.edit(document), () => this.edit(document), () => this.edit(document), () => this.edit(document),
      () => inGroup ? this.of(["end", "abort", "end"]) : this.of(["undo", "redo", "undo", "begin"]),
      () => this.of(["list", `list ${this.layer(document)}`]),
      () => `write ${this.layer(document)} written/mine-${this.whole(1000)}`,
      () => this.of(["window 0 0 100000 64 64", `window -1000000 -1000000 ${this.of([50000, 200000])} 100 80`, "window 0 0 0 1 1"]),
      () => this.of([`plot ${this.layer(document)} plots/mine-${this.whole(1000)}`, "redraw 5"]),
      () => this.of(["nonsense", "move top", `undo ${DEPTH}`, "end", "load again gerber files/none", "# a comment", "delete top -1"]),
    ])();
  }
}
