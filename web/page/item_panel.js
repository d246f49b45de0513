// What is picked, with what can be done to it, and what insertions use.

import { arrangingRows } from "./arranging.js";
import { button, byId, element, field, redraw } from "./dom.js";
import { gapParts } from "./gap_panel.js";
import { joined, lengthIn, lengthText, plural, wholeOf, wordsIn } from "../board/index.js";
import { layerOf } from "../machine/index.js";
import { toldParts } from "./told_parts.js";

/** @param {string} value @param {Record<string, unknown>} properties */
const input = (value, properties = {}) => element("input", { type: "text", value, spellcheck: false, ...properties });

// A field whose value is taken by Enter or its button.
/**
 * @param {string} label
 * @param {string} verb
 * @param {HTMLElement[]} parts
 * @param {() => unknown} run
 */
function form(label, verb, parts, run) {
  const made = element("form", { className: "row", "data-row": label }, element("span", {}, label), ...parts,
    element("button", { type: "submit" }, verb));
  made.onsubmit = (event) => {
    event.preventDefault();
    run();
  };
  return made;
}

// The forms about what is picked act on these picks, and on no others that are picked when their turn comes.
class PickedForms {
  /** @param {Page.Runner} machine @param {Machine.State} state */
  constructor(machine, state) {
    this.machine = machine;
    this.state = state;
    this.of = state.picked.map(({ id }) => id);
  }

  /** @param {Machine.Edit} edit */
  edit(edit) {
    return this.machine.gesture({ ...edit, of: this.of });
  }

  /** @param {string} text */
  say(text) {
    this.machine.send({ kind: "say", text, isFault: true });
  }

  move() {
    const { unit } = this.state;
    const dx = input("0", { "aria-label": `to the right, in ${unit}` }), dy = input("0", { "aria-label": `up, in ${unit}` });
    return form(`by, ${unit}`, "move", [dx, dy], () => {
      const x = lengthIn(dx.value, unit), y = lengthIn(dy.value, unit);
      if (x === null || y === null) return this.say(`A length is a number of ${unit}, as 1.25, or with a unit, as 50 mil.`);
      return this.edit({ kind: "edit", verb: "move", dx: x, dy: y });
    });
  }

  /** @param {Machine.Picked} item */
  entry(item) {
    const isDrill = layerOf(this.state, item.name)?.kind === "drill";
    const choice = entryChoice(this.state, item.name, Number(item.words.split(" ")[1]));
    return form(isDrill ? "tool" : "aperture", "set", [choice],
      () => this.edit({ kind: "edit", verb: isDrill ? "tool" : "aperture", number: Number(choice.value) }));
  }

  polarity() {
    return element("div", { className: "buttons", "data-row": "polarity" }, ...["dark", "clear"].map((value) =>
      button(value, () => this.edit({ kind: "edit", verb: "polarity", value }))));
  }

  /** @param {Machine.Picked} item */
  reorder(item) {
    const to = input(String(item.place), { inputMode: "numeric", "aria-label": "place in the list" });
    return form("place", "move there", [to], () => {
      const place = wholeOf(to.value);
      if (place === null) return this.say("A place is a whole number from 0.");
      return this.edit({ kind: "edit", verb: "reorder", to: place });
    });
  }
}

/** @param {Machine.State} state @param {string} name @param {number | null} chosen */
function entryChoice({ entries, unit }, name, chosen) {
  return element("select", { "aria-label": "aperture or tool" }, ...(entries[name] ?? []).map(({ number, words }) =>
    element("option", { value: number, selected: number === chosen }, `${number}: ${wordsIn(words, unit)}`)));
}

/** @param {Board.Box | null} box @param {string} unit */
function sizeWords(box, unit) {
  if (!box) return "It paints nothing.";
  const [width, height, left, low] = [box.right - box.left, box.high - box.low, box.left, box.low].map((nm) => lengthText(nm, unit));
  return `${width} by ${height} ${unit}, from ${left}, ${low}`;
}

/** @param {Page.Runner} machine @param {Machine.State} state */
function showPicked(machine, state) {
  const items = state.picked, [first] = items, panel = byId("picked");
  if (!first) return panel.replaceChildren(element("p", { className: "hint" },
    "Click an item to pick it, again for the one under it; drag a box to the right for all that lie in it, to the left for all "
      + "that it touches."));
  const isOne = items.length === 1, forms = new PickedForms(machine, state);
  /** @type {HTMLElement[]} */
  const parts = isOne ? toldParts(machine, state, first) : [element("h3", {}, plural(items.length, "item"))];
  parts.push(element("p", { className: "hint" }, sizeWords(joined(items.map((item) => item.box)), state.unit)),
    ...gapParts(machine, state), forms.move());
  const kinds = new Set(items.map((item) => item.words.split(" ")[0]));
  const layers = new Set(items.map((item) => item.name));
  if (!kinds.has("region") && !kinds.has("repeat") && layers.size === 1) parts.push(forms.entry(first));
  if (items.some((item) => layerOf(state, item.name)?.kind === "gerber")) parts.push(forms.polarity());
  if (isOne) parts.push(forms.reorder(first));
  parts.push(...arrangingRows(state));
  return redraw(panel, ...parts);
}

// The active layer: its apertures or tools, for insertions and diameters, and its attributes.
/** @param {Page.Runner} machine @param {Machine.State} state */
function showActive(machine, state) {
  const layer = layerOf(state, state.active), panel = byId("active");
  if (!layer) return panel.replaceChildren(element("p", { className: "hint" }, "No layer is open."));
  const list = state.entries[layer.name] ?? [], choice = entryChoice(state, layer.name, state.entry);
  choice.onchange = () => machine.send({ kind: "setting", changes: { entry: Number(choice.value) } });
  const isDrill = layer.kind === "drill";
  /** @type {HTMLElement[]} */
  const parts = [element("h3", {}, layer.label), field(isDrill ? "new with tool" : "new with aperture", choice)];
  if (isDrill && list.length) parts.push(diameterForm(machine, layer.name, choice, state.unit));
  if (!isDrill) parts.push(...attributeParts(machine, layer.name, state.attributes[layer.name]));
  return redraw(panel, ...parts);
}

/** @param {Page.Runner} machine @param {string} name @param {HTMLSelectElement} choice @param {string} unit */
function diameterForm(machine, name, choice, unit) {
  const size = input("", { placeholder: unit, "aria-label": `diameter in ${unit}` });
  return form("its diameter", "set", [size], () => {
    const nm = lengthIn(size.value, unit);
    if (nm === null) return machine.send({ kind: "say", text: `A diameter is a number of ${unit}, as 0.8.`, isFault: true });
    return machine.gesture({ kind: "edit", verb: "diameter", name, number: Number(choice.value), nm });
  });
}

/** @param {Page.Runner} machine @param {string} name @param {string[] | undefined} lines */
function attributeParts(machine, name, lines) {
  if (!lines) return [];
  const key = input("", { placeholder: ".Part", "aria-label": "name of the attribute" });
  const fields = input("", { placeholder: "Single", "aria-label": "fields of the attribute" });
  const rows = lines.map((line) => {
    const [shown = ""] = line.split(/[ ,]/, 1);
    return element("li", {}, element("code", {}, line.slice(0, 120)),
      button("drop", () => machine.gesture({ kind: "edit", verb: "dropattr", name, key: shown }), { "aria-label": `drop ${shown}` }));
  });
  return [element("details", {}, element("summary", {}, plural(lines.length, "file attribute")),
    element("ul", { className: "attributes" }, ...rows),
    form("attribute", "set", [key, fields],
      () => machine.gesture({ kind: "edit", verb: "setattr", name, key: key.value.trim(), fields: fields.value.trim() })))];
}

/** @param {Page.Runner} machine */
export function listenToItems(machine) {
  machine.panel(({ picked, entries, layers, unit, gap, inWords, lit }) => [picked, entries[picked[0]?.name ?? ""], layers.length, unit, gap, inWords, lit],
    (state) => showPicked(machine, state));
  machine.panel((state) => {
    const { active, entries, attributes } = state, layer = layerOf(state, active);
    return [active, layer?.label, entries[active ?? ""], attributes[active ?? ""], state.unit];
  }, (state) => showActive(machine, state));
}
