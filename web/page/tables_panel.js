// The table of drill tools and that of the chosen layer's apertures: sizes, how many items each has, and buttons that light or pick
// all of them.

import { button, byId, contextOf, element, redraw } from "./dom.js";
import { filesOf, isOpening, layerOf, platingOf, tabled } from "../machine/index.js";
import { lengthText, seen, wordsIn } from "../board/index.js";

// Pixels of a shape's picture along a side.
const SIDE = 36;

/** @param {Record<string, number>} counts */
const sum = (counts) => Object.values(counts).reduce((all, count) => all + count, 0);

/** @type {Record<string, string>} */
const PLURALS = { flash: "flashes" };
/** @param {Record<string, number>} counts */
const countWords = (counts) => Object.entries(counts).map(([kind, count]) =>
  `${count.toLocaleString("en")} ${count === 1 ? kind : PLURALS[kind] ?? `${kind}s`}`).join(", ") || "unused";

/** @param {(Node | string)[]} contents */
const cells = (...contents) => contents.map((content) => element("td", {}, content));

/** @param {string[]} words */
const heads = (...words) => element("thead", {}, element("tr", {}, ...words.map((word) => element("th", { scope: "col" }, word))));

// The bytes of a layer's file.
/** @param {Machine.State} state @param {string | undefined} name */
function fileOf(state, name) {
  const id = name === undefined ? undefined : filesOf(state).get(name);
  return id === undefined ? undefined : state.files[id]?.bytes;
}

/** @param {Machine.State} state @param {string} name */
const labelOf = (state, name) => layerOf(state, name)?.label ?? name;

// The shape of an aperture as the station paints it.
/** @param {ImageBitmap | undefined} bitmap @param {string} words */
function canvasOf(bitmap, words) {
  const canvas = element("canvas", { width: SIDE, height: SIDE, role: "img", "aria-label": words });
  if (bitmap) contextOf(canvas).drawImage(bitmap, 0, 0);
  return canvas;
}

export class TablesPanel {
  /** @param {Page.Runner} machine */
  constructor(machine) {
    this.machine = machine;
    // The shapes of layers by the bytes of their files: another layer may get a name, and another board has it too.
    /** @type {WeakMap<Uint8Array, Map<number, ImageBitmap>>} */
    this.shapes = new WeakMap();
    /** @type {Map<HTMLElement, string>} */
    this.shown = new Map();
    for (const [id, key] of /** @type {const} */ ([["drills-panel", "isDrill"], ["apertures-panel", "isApertures"]])) {
      byId(id).ontoggle = () => this.ask({ [key]: byId(id).open });
    }
    machine.panel((state) => [state.tables, state.told, state.active, isOpening(state), state.work, state.queue],
      (state) => this.renew(state));
    machine.panel(({ tables, unit, active, layers }) => [tables, unit, active, layers], (state) => this.show(state));
  }

  /** @param {Partial<Machine.Tables>} changes */
  ask(changes = {}) {
    this.machine.gesture({ kind: "tally", changes });
  }

  // What the tables show is counted anew where the board changed.
  /** @param {Machine.State} state */
  renew(state) {
    const { tables, told, work, queue } = state;
    const isAsked = work?.gesture.kind === "tally" || queue.some(({ kind }) => kind === "tally");
    const isOld = tables.told !== told && (tabled(state).length > 0 || tables.lit) || tabled(state).some((name) => !tables.found[name]);
    if (isOld && !isAsked && !isOpening(state) && state.station.isOpen) this.ask();
  }

  // Lights all items of a number, or none where they are lit.
  /** @param {string} name @param {number} number */
  light(name, number) {
    const { lit } = this.machine.state.tables, isLit = lit?.name === name && lit.number === number;
    this.ask({ lit: isLit ? null : { name, number, items: null } });
    if (this.machine.state.lit) this.machine.gesture({ kind: "light", of: null });
  }

  // The buttons of a row: its number lights its items, the other one picks them.
  /**
   * @param {Machine.State} state
   * @param {string} name
   * @param {number} number
   * @param {string} words
   * @param {number} count
   * @returns {[light: HTMLButtonElement, pick: HTMLButtonElement]}
   */
  buttons(state, name, number, words, count) {
    const { lit } = state.tables, isLit = lit?.name === name && lit.number === number;
    const label = `${words} of ${labelOf(state, name)}`;
    const light = { "aria-pressed": String(isLit), "aria-label": `light all of ${label}`, disabled: count === 0 };
    const pick = { className: "only", "aria-label": `pick all of ${label}`, disabled: count === 0 };
    return [button(words, () => this.light(name, number), light),
      button("pick", () => this.machine.gesture({ kind: "pickLike", by: "entry", of: [{ name, key: String(number) }] }), pick)];
  }

  // Whether a table shows something else than before: its rows stay where they are the same.
  /** @param {HTMLElement} panel @param {Machine.State} state @param {unknown[]} more */
  isNew(panel, state, ...more) {
    const { lit, found } = state.tables, names = tabled(state), shown = panel.id === "drills" ? "drill" : "gerber";
    const of = names.filter((name) => layerOf(state, name)?.kind === shown).map((name) => [name, labelOf(state, name), found[name]]);
    const key = JSON.stringify([of, lit && [lit.name, lit.number], state.unit, more]), isNew = this.shown.get(panel) !== key;
    this.shown.set(panel, key);
    return isNew;
  }

  /** @param {Machine.State} state */
  show(state) {
    const { isDrill, isApertures } = state.tables, names = tabled(state);
    /** @param {string} name */
    const isDrillLayer = (name) => layerOf(state, name)?.kind === "drill";
    if (isDrill) this.showDrills(state, names.filter(isDrillLayer));
    if (isApertures) this.showApertures(state, names.find((name) => !isDrillLayer(name)));
  }

  /** @param {Machine.State} state @param {string[]} names */
  showDrills(state, names) {
    if (!this.isNew(byId("drills"), state)) return;
    const parts = names.flatMap((name) => this.drillParts(state, name));
    redraw(byId("drills"), ...parts.length ? parts : [element("p", { className: "hint" }, "No drill layer is open.")]);
  }

  /** @param {Machine.State} state @param {string} name */
  drillParts(state, name) {
    const found = state.tables.found[name];
    if (!found) return [];
    const plating = platingOf(state, name);
    const rows = found.entries.map(({ number, width }) => {
      const counts = found.counts[number] ?? {}, [light, pick] = this.buttons(state, name, number, `T${number}`, sum(counts));
      const hits = String(counts.hit ?? 0), routs = String(counts.rout ?? 0);
      return element("tr", { "data-row": number },
        ...cells(light, lengthText(width, state.unit), hits, routs, plating.of(number), pick));
    });
    return [element("h3", {}, labelOf(state, name)), element("table", { className: "tally", "data-row": name },
      heads("tool", state.unit, "hits", "routs", "plated", ""), element("tbody", {}, ...rows))];
  }

  /** @param {Machine.State} state @param {string | undefined} name */
  showApertures(state, name) {
    const panel = byId("apertures"), bytes = fileOf(state, name), shapes = bytes && this.shapes.get(bytes);
    if (!this.isNew(panel, state, filesOf(state).get(name ?? ""), shapes?.size)) return undefined;
    if (!name) return redraw(panel, element("p", { className: "hint" }, "Choose a Gerber layer: a drill layer has tools."));
    const found = state.tables.found[name];
    if (!found) return undefined;
    this.draw(state, name, bytes);
    const rows = found.entries.map(({ number, words }) => {
      const counts = found.counts[number] ?? {}, [light, pick] = this.buttons(state, name, number, `D${number}`, sum(counts));
      return element("tr", { "data-row": number },
        ...cells(light, canvasOf(shapes?.get(number), words), wordsIn(words, state.unit), countWords(counts), pick));
    });
    const without = found.counts.none ? [element("p", { className: "hint" }, `without an aperture: ${countWords(found.counts.none)}`)] : [];
    return redraw(panel, element("h3", {}, labelOf(state, name)), element("table", { className: "tally" },
      heads("", "shape", "size", "items", ""), element("tbody", {}, ...rows)), ...without);
  }

  // Asks for the shapes of a layer once: nothing changes a definition.
  /** @param {Machine.State} state @param {string} name @param {Uint8Array | undefined} bytes */
  draw(state, name, bytes) {
    const { machine, machine: { link } } = this, layer = layerOf(state, name);
    if (!bytes || !layer || !link || this.shapes.has(bytes) || !state.station.isOpen) return;
    /** @type {Map<number, ImageBitmap>} */
    const shapes = new Map();
    const isLight = document.documentElement.dataset.look === "light";
    this.shapes.set(bytes, shapes);
    /** @type {Promise<{ shapes: { number: number, bitmap: ImageBitmap }[] }>} */
    const asked = link.call("shapes", { name, side: SIDE, colour: seen(layer.colour, isLight) });
    machine.await(asked.then((found) => {
      for (const { number, bitmap } of found.shapes) shapes.set(number, bitmap);
      this.show(machine.state);
    }, () => this.shapes.delete(bytes)));
  }
}
