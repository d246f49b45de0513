// A plain model of the station and of what keeps, for the machine's tests: lists of items, each an object of its own, so
// that it is seen which item stands where.

const wordsOf = (line) => line.trim().split(/[ \t]+/);

class Layer {
  constructor(name, kind, count) {
    Object.assign(this, { name, kind });
    this.items = Array.from({ length: count }, (_, at) => ({ words: `flash 10 ${2 * at} 0 r0 dark` }));
    this.attributes = {};
    // What it was when it was loaded.
    this.loaded = this.text;
  }

  get text() {
    return [...Object.entries(this.attributes).map(([key, fields]) => `${key},${fields}`), ...this.items.map(({ words }) => words)].join("\n");
  }
}

const moved = (words, dx) => words.replace(/^flash (\d+) (-?\d+)/, (_, number, x) => `flash ${number} ${Number(x) + dx}`);

export class ModelStation {
  constructor() {
    this.named = new Map();
    this.done = [];
    this.undone = [];
    this.group = null;
  }

  layers() {
    return [...this.named.values()];
  }

  items(name) {
    return this.named.get(name)?.items ?? [];
  }

  texts() {
    return Object.fromEntries(this.layers().map((layer) => [layer.name, layer.text]));
  }

  loadedTexts() {
    return Object.fromEntries(this.layers().map((layer) => [layer.name, layer.loaded]));
  }

  history() {
    return [this.done.length, this.undone.length];
  }

  // The script as a file, with the files of a state.
  run(script, { paths, files }) {
    for (const line of script.split("\n").filter((text) => text)) {
      if (line.startsWith("#")) continue;
      const [word, , , path] = wordsOf(line), bytes = word === "load" ? files[paths[path]].bytes : undefined;
      const { code, reply } = this.apply({ line, bytes });
      if (code) throw new Error(`${line}: ${reply}`);
    }
  }

  answer({ kind, ...message }) {
    return this[kind](message);
  }

  lines({ lines, isGroup }) {
    const answers = isGroup ? [this.apply({ line: "begin" })] : [];
    for (const line of lines) {
      answers.push(this.apply(line));
      if (answers[answers.length - 1].code) break;
    }
    const isWhole = !answers.some(({ code }) => code);
    if (isGroup) answers.push(this.apply({ line: isWhole ? "end" : "abort" }));
    return { answers };
  }

  apply({ line, bytes }) {
    const [word, ...rest] = wordsOf(line);
    if (word.startsWith("#")) return { code: 0, reply: "" };
    const found = this[`do_${word}`]?.(rest, bytes) ?? 80;
    if (typeof found === "number") return { code: found, reply: `refused ${found}` };
    return { code: 0, reply: found.reply ?? "ok", bytes: found.bytes };
  }

  do_load([name, kind], bytes) {
    if (!bytes) return 82;
    if (this.group) return 72;
    if (this.named.has(name)) return 83;
    if (this.named.size >= 32) return 85;
    const head = new TextDecoder().decode(bytes);
    if (head.includes("refused")) return 3;
    const count = Number(/G04 (\d+)/.exec(head)[1]);
    this.named.set(name, new Layer(name, kind, count));
    this.done = this.undone = [];
    return { reply: `ok ${count}` };
  }

  do_window() {
    return {};
  }

  do_plot([name]) {
    return this.named.has(name) ? { reply: "ok 4", bytes: new Uint8Array(4) } : 60;
  }

  do_write([name]) {
    const layer = this.named.get(name);
    if (!layer) return 60;
    return { reply: `ok ${layer.text.length}`, bytes: new TextEncoder().encode(layer.text) };
  }

  edit(name, place, act, isEnd = false) {
    const layer = this.named.get(name);
    if (!layer) return 60;
    if (!(place < layer.items.length + (isEnd ? 1 : 0))) return 61;
    const before = layer.items, after = act(before.slice());
    layer.items = after;
    const change = { layer, before, after };
    if (this.group) this.group.push(change);
    else this.push([change]);
    return {};
  }

  push(changes) {
    this.done = [...this.done, changes].slice(-1000);
    this.undone = [];
  }

  do_insert([name, place, ...words]) {
    return this.edit(name, Number(place), (items) => {
      items.splice(Number(place), 0, { words: words.join(" ") });
      return items;
    }, true);
  }

  do_delete([name, place]) {
    return this.edit(name, Number(place), (items) => {
      items.splice(Number(place), 1);
      return items;
    });
  }

  do_reorder([name, place, to]) {
    if (!(Number(to) < this.items(name).length)) return 61;
    return this.edit(name, Number(place), (items) => {
      const [item] = items.splice(Number(place), 1);
      items.splice(Number(to), 0, item);
      return items;
    });
  }

  // An edit of an item keeps which one it is: its words stand in the list for it.
  change(name, place, make) {
    const item = this.items(name)[place];
    if (!item) return this.named.has(name) ? 61 : 60;
    const before = item.words, after = make(before), change = { item, before, after };
    item.words = after;
    if (this.group) this.group.push(change);
    else this.push([change]);
    return {};
  }

  do_move([name, place, dx]) {
    return this.change(name, Number(place), (words) => moved(words, Number(dx)));
  }

  do_polarity([name, place, value]) {
    return this.change(name, Number(place), (words) => words.replace(/(dark|clear)$/, value));
  }

  attribute(name, make) {
    const layer = this.named.get(name);
    if (!layer) return 60;
    const before = layer.attributes, after = make({ ...before }), change = { said: layer, before, after };
    if (!after) return 67;
    layer.attributes = after;
    if (this.group) this.group.push(change);
    else this.push([change]);
    return {};
  }

  do_setattr([name, key, fields = ""]) {
    return this.attribute(name, (all) => ({ ...all, [key]: fields }));
  }

  do_dropattr([name, key]) {
    return this.attribute(name, ({ [key]: dropped, ...others }) => dropped === undefined ? null : others);
  }

  do_begin() {
    if (this.group) return 72;
    this.group = [];
    return {};
  }

  do_end() {
    if (!this.group) return 73;
    if (this.group.length) this.push(this.group);
    this.group = null;
    return {};
  }

  do_abort() {
    if (!this.group) return 73;
    this.turn(this.group, false);
    this.group = null;
    return {};
  }

  turn(changes, isForth) {
    for (const { layer, item, said, before, after } of isForth ? changes : changes.slice().reverse()) {
      if (said) said.attributes = isForth ? after : before;
      else if (layer) layer.items = isForth ? after : before;
      else item.words = isForth ? after : before;
    }
  }

  do_undo() {
    if (this.group) return 72;
    if (!this.done.length) return 70;
    const changes = this.done[this.done.length - 1];
    this.done = this.done.slice(0, -1);
    this.undone = [...this.undone, changes];
    this.turn(changes, false);
    return {};
  }

  do_redo() {
    if (this.group) return 72;
    if (!this.undone.length) return 71;
    const changes = this.undone[this.undone.length - 1];
    this.undone = this.undone.slice(0, -1);
    this.done = [...this.done, changes];
    this.turn(changes, true);
    return {};
  }

  look({ places, entries, attributes, list }) {
    return {
      layers: this.layers().map(({ name, kind, items }) => `${name} ${kind} ${items.length} 1`),
      items: places.map(({ name, place }) => {
        const item = this.items(name)[place];
        return item ? { words: item.words, box: "0 0 1 1" } : null;
      }),
      entries: Object.fromEntries(entries.map((name) => [name, ["aperture 10", "%ADD10C,1.000000*%"]])),
      attributes: attributes === null ? null : { name: attributes, lines: [] }, list: list && { ...list, words: [] },
    };
  }

  under({ pile, x, below }) {
    const names = pile.filter((name) => this.named.has(name));
    for (const name of below ? [...names.slice(Math.max(0, names.indexOf(below.name))), ...names] : names) {
      const items = this.items(name), place = (x * 7) % (items.length + 3);
      if (place < items.length) return { found: { name, place } };
    }
    return { found: null };
  }

  pile({ pile, x }) {
    const items = pile.flatMap((name) => this.items(name).flatMap(({ words }, place) => (place + x) % 3 ? [] : [{ name, place, words, box: "0 0 1 1" }]));
    return { items, isMore: false };
  }

  tally({ names, lit }) {
    const counts = (name) => ({ 10: { flash: this.items(name).length } });
    return { layers: Object.fromEntries(names.map((name) => [name, { counts: counts(name), entries: ["aperture 10", "%ADD10C,1.000000*%"] }])),
      lit: lit && this.items(lit.name).map(({ words }, place) => ({ name: lit.name, place, words, box: "0 0 1 1" })) };
  }

  gap() {
    return { gap: null };
  }

  compareView() {
    return { isWhole: true, sheets: null };
  }

  inside({ names, box }) {
    return { places: names.flatMap((name) => this.items(name).flatMap((_, place) =>
      place >= box.left && place <= box.right ? [{ name, place }] : [])) };
  }

  touched(message) {
    return this.inside(message);
  }

  like({ by, of }) {
    const isLike = (words, key) => words.split(" ")[by === "kind" ? 0 : 1] === key;
    return { places: [...new Set(of.map(({ name }) => name))].flatMap((name) => this.items(name).flatMap(({ words }, place) =>
      of.some((one) => one.name === name && isLike(words, one.key)) ? [{ name, place }] : [])) };
  }

  boxes({ names }) {
    return { boxes: names.map(() => "0 0 10000000 10000000") };
  }

  compare() {
    return { isWhole: true, differing: [], count: this.named.size, box: null, sheets: null };
  }

  dropped({ files }) {
    return { files: files.map(({ id, bytes }) => ({ id, words: bytes.length % 2 ? ["1 net names (.N)"] : [] })) };
  }

  withAttributes({ layers }) {
    return { files: layers.map(({ name, canonical }) => ({ name, bytes: canonical })) };
  }

  stop() {
    return {};
  }

  picture() {
    return {};
  }
}

// What keeps: all or nothing of a write; it refuses as many as it is told to.
export class ModelJournal {
  constructor() {
    Object.assign(this, { records: [], files: new Map(), waiting: null, looks: null, refusals: 0, isLost: false });
  }

  get told() {
    return this.records.flat();
  }

  lose() {
    Object.assign(this, { records: [], files: new Map(), waiting: null, looks: null, isLost: true });
  }

  write({ kind, from, records, files, waiting }) {
    if (this.refusals > 0) {
      this.refusals--;
      return { isKept: false, why: "it is full" };
    }
    if (kind === "anew") {
      Object.assign(this, { records: [], files: new Map(), isLost: false });
    } else if (this.isLost || from !== this.records.length) {
      return { isKept: false, why: "deleted", isLost: true };
    }
    this.records = [...this.records, ...records];
    for (const [id, bytes] of files) this.files.set(id, bytes);
    if (waiting) this.waiting = JSON.parse(JSON.stringify(waiting));
    return { isKept: true };
  }

  read() {
    return { records: this.records.slice(), files: [...this.files], looks: this.looks, waiting: this.waiting, why: null, isOpen: true };
  }
}
