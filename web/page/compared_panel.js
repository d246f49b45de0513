// The panel that compares the board that is shown with another one: by files, a folder, an archive or another tab. It lists the pairs
// of layers, leads from place to place, and saves a report.

import { ComparedBoards, OVER } from "./compared_boards.js";
import { ComparedPicture } from "./compared_picture.js";
import { act } from "./actions.js";
import { button, byId, element, redraw } from "./dom.js";
import { download } from "./saving.js";
import { droppedOf } from "./files.js";
import { faultWords } from "./store.js";
import { givenOfBoard, givenOfDrop, givenOfInput } from "./compared_given.js";
import { nameOf, plural } from "../board/index.js";
import { noLayer } from "./reasons.js";
import { partsOf } from "./compared_parts.js";
import { reportOf } from "./compared_report.js";

/** @typedef {import("./compared_given.js").Given} Given */
/** @typedef {import("./compared_boards.js").Found} Found */
/** @typedef {{ pair: number, place: number }} At a place of a pair; of a pair without places its place is -1 */

/** So far around a place the board is shown, in nm; and so many times closer a picture comes with a key, at most, and at least. */
const AROUND = 500_000, STEP = 2, CLOSEST = 1 << 20, FARTHEST = 1 / 64;

/** @param {Machine.State} state */
const whyNot = (state) => noLayer(state) ?? (state.steps.group ? "A group is open." : null);

export class ComparedPanel {
  /** @param {Page.Parts} page */
  constructor({ machine, boards }) {
    this.machine = machine;
    this.boards = boards;
    this.compared = new ComparedBoards((found) => this.draw(found));
    this.picture = new ComparedPicture();
    // What gives the boards, A and B; the board that was shown then, and its lines.
    /** @type {(() => Promise<Given>)[]} */
    this.sources = [];
    /** @type {Page.Board | null} */
    this.board = null;
    /** @type {Machine.Told[] | null} */
    this.told = null;
    /** @type {Found | null} */
    this.found = null;
    /** @type {At | null} */
    this.at = null;
    this.zoom = 1;
    // What is shown of it.
    /** @type {import("../worker/index.js").PlaceShown | null} */
    this.shown = null;
    this.isSaving = false;
    this.parts = partsOf(this.picture, { save: () => this.save(), swap: () => this.swap(), compare: () => this.compare(), show: () => this.show(),
      step: (by) => this.step(by), closer: (factor) => this.closer(factor) });
    this.listen();
  }

  listen() {
    const { files, folder, pitch, dialog, command } = this.parts;
    for (const input of [files, folder]) input.onchange = () => input.files?.length && this.takeRead(givenOfInput(input));
    pitch.onchange = () => this.compare();
    dialog.onkeydown = (event) => this.key(event);
    dialog.onclose = () => this.picture.stop();
    new ResizeObserver(() => this.found && this.at && this.picture.canvas.clientWidth && this.ask()).observe(this.picture.canvas);
    this.takeDrops(dialog);
    this.takeDrops(command);
  }

  // What is dropped here is the other board, and opened by nobody else.
  /** @param {HTMLElement} target */
  takeDrops(target) {
    /** @param {boolean} isOver */
    const over = (isOver) => target.classList.toggle("over", isOver);
    target.addEventListener("dragover", () => over(true));
    target.addEventListener("dragleave", () => over(false));
    target.addEventListener("drop", (event) => {
      event.preventDefault();
      event.stopPropagation();
      over(false);
      byId("dropping").hidden = true;
      const dropped = droppedOf(event.dataTransfer), why = whyNot(this.machine.state);
      if (why || !dropped.length) this.machine.send({ kind: "say", text: why ?? "Nothing in that drop is a file.", isFault: true });
      else this.takeRead(givenOfDrop(dropped));
    });
  }

  // The panel as it was left, where the same board is shown.
  open() {
    const { boards, machine, parts: { choose, dialog } } = this;
    if (this.board !== boards.shown) this.forget();
    if (!dialog.open) dialog.showModal();
    this.picture.turnTo(this.picture.way);
    this.drawChoices();
    this.draw(this.found);
    if (this.found && this.told !== machine.state.told) this.say("The board was changed since it was compared: compare again.");
    if (!this.sources.length) choose.querySelector("button")?.focus();
  }

  forget() {
    this.compared.end();
    Object.assign(this, { sources: [], board: this.boards.shown, told: null, found: null, at: null });
    this.picture.clear();
    this.say("");
  }

  // The other boards that can be compared: files, a folder, and those of the other tabs.
  drawChoices() {
    const { boards, parts } = this, others = boards.list.filter((board) => board !== boards.shown);
    const words = this.sources.length ? "Another board:" : "Drop the other board here, a ZIP file, a folder or files of it, or choose:";
    redraw(parts.choose, element("span", { className: "hint" }, words), button("files", () => parts.files.click(), { id: "two-boards-open" }),
      button("folder", () => parts.folder.click()), ...others.map((board) =>
        button(nameOf(board), () => this.take(() => givenOfBoard(board, null)), { className: "two-boards-tab", title: "the board of this tab" })));
    parts.choose.dataset.isEmpty = String(!this.sources.length);
  }

  // The other board, which is read once.
  /** @param {Promise<Given>} reading */
  takeRead(reading) {
    return this.take(() => reading);
  }

  // The other board, by what reads it.
  /** @param {() => Promise<Given>} source */
  take(source) {
    const { boards, machine } = this, whyOf = whyNot(machine.state);
    if (whyOf) return machine.send({ kind: "say", text: whyOf, isFault: true });
    if (this.board !== boards.shown) this.forget();
    this.sources = [() => givenOfBoard(boards.board, machine.state), source];
    this.open();
    return this.compare();
  }

  swap() {
    this.sources.reverse();
    return this.compare();
  }

  async compare() {
    const { compared, machine, sources } = this;
    compared.end();
    Object.assign(this, { found: null, at: null, told: machine.state.told });
    this.picture.clear();
    this.draw(null);
    this.drawChoices();
    this.say("reading the boards ..");
    try {
      const sides = await Promise.all(sources.map((source) => source()));
      if (this.sources === sources) await compared.compare(sides, Number(this.parts.pitch.value));
    } catch (fault) {
      // (what was ended for another comparison is no fault)
      if (this.sources === sources && faultWords(fault) !== OVER) this.say(`They cannot be compared: ${faultWords(fault)}`, true);
    }
  }

  /** @param {string} words @param {boolean} isFault */
  say(words, isFault = false) {
    this.parts.said.textContent = words;
    this.parts.said.classList.toggle("fault", isFault);
  }

  // All places, pair after pair.
  places() {
    return (this.found?.rows ?? []).flatMap((row, pair) => Array.from({ length: row?.places ?? 0 }, (_, place) => ({ pair, place })));
  }

  /** @param {Found | null} found */
  draw(found) {
    const { parts } = this, isDone = Boolean(found?.summary);
    this.found = found;
    for (const one of [parts.swap, parts.again]) one.hidden = this.sources.length < 2;
    parts.report.disabled = !isDone || this.isSaving;
    parts.titles.replaceChildren(...(found?.sides ?? []).map(({ title, isShown }, at) => element("span", {}, element("b", { className: "ab"[at] }, `${"AB"[at]} `),
      title, isShown ? element("small", {}, " this board") : "")));
    parts.dialog.dataset.has = found ? "yes" : "no";
    redraw(parts.pairs, ...found ? this.rows(found) : []);
    parts.place.hidden = !found || !this.at;
    const count = (found?.rows ?? []).filter((row) => row).length;
    if (found) this.say(isDone ? [found.summary, ...found.notes].join(" ") : `comparing: ${count} of ${plural(found.rows.length, "pair")} ..`);
    if (!this.at && this.places().length) this.step(1);
  }

  /** @param {Found} found */
  rows({ pairs, rows, onlyFirst, onlySecond }) {
    /** @param {import("./compared_boards.js").Alone[]} list @param {string} words */
    const alone = (list, words) => list.map(({ title, file }) =>
      element("li", { className: "alone" }, element("b", {}, title), element("small", {}, `${words}: ${file}`)));
    return [...pairs.map(({ title, files }, at) => {
      const row = rows[at], isAt = this.at?.pair === at;
      const chosen = button("", () => this.choose(at), { "aria-current": String(isAt), disabled: row === null,
        title: files.map((file, side) => `${"AB"[side]}: ${file}`).join("\n") });
      chosen.append(element("b", {}, row?.title ?? title), element("span", {}, row?.words ?? "waits .."),
        ...(row?.besides ?? []).map((line) => element("small", {}, line)));
      return element("li", { "data-row": String(at), "data-outcome": row?.outcome ?? "waits" }, chosen);
    }), ...alone(onlyFirst, "only in A"), ...alone(onlySecond, "only in B")];
  }

  // A pair, at its first place.
  /** @param {number} pair */
  choose(pair) {
    return this.go({ pair, place: this.found?.rows[pair]?.places ? 0 : -1 });
  }

  // The next place, or one before; behind the last one the first comes again.
  /** @param {number} by */
  step(by) {
    const places = this.places(), { at } = this;
    if (!places.length) return undefined;
    /** @param {At} at */
    const order = ({ pair, place }) => pair * 1e9 + place;
    const now = at ? order(at) : -1;
    const next = by > 0 ? places.find((one) => order(one) > now) ?? places[0] : [...places].reverse().find((one) => order(one) < now) ?? places[places.length - 1];
    return next && this.go(next);
  }

  /** @param {At} at */
  go(at) {
    this.at = at;
    this.zoom = 1;
    this.draw(this.found);
    this.parts.pairs.querySelector("[aria-current=true]")?.scrollIntoView({ block: "nearest" });
    return this.ask();
  }

  /** @param {number} factor */
  closer(factor) {
    this.zoom = Math.min(CLOSEST, Math.max(FARTHEST, this.zoom * factor));
    return this.ask();
  }

  // Shows the place that is chosen, with its picture as soon as that is there.
  async ask() {
    const { at, found, parts, picture, zoom } = this, row = at && found?.rows[at.pair];
    if (!at || !found || !row) return undefined;
    const hasPlace = at.place >= 0, places = this.places();
    const number = places.findIndex(({ pair, place }) => pair === at.pair && place === at.place) + 1;
    const ofAll = places.length === row.places ? "" : `, ${number} of ${places.length} in all`;
    parts.where.textContent = `${row.title}: ${hasPlace ? `place ${at.place + 1} of ${row.places}${ofAll}` : row.words}`;
    this.parts.place.dataset.has = hasPlace ? "yes" : "no";
    this.parts.place.dataset.place = "";
    if (!hasPlace) return this.clear(row.besides);
    const shown = await this.compared.place({ ...at, ...picture.sides(), zoom }).catch((/** @type {unknown} */ fault) => {
      if (faultWords(fault) !== OVER) this.say(`The place cannot be shown: ${faultWords(fault)}`, true);
      return null;
    });
    if (!shown || this.at !== at || this.zoom !== zoom) return undefined;
    this.shown = shown;
    parts.line.textContent = `${shown.line}. The picture has pixels of ${shown.window.pitch} nm.`;
    redraw(parts.changes, ...[...shown.changes, ...shown.more ? [`and ${plural(shown.more, "more change")}`] : []].map((line) => element("li", {}, line)));
    parts.show.disabled = !found.sides.some(({ isShown }) => isShown);
    this.parts.place.dataset.place = `${at.pair} ${at.place}`;
    return picture.show(shown);
  }

  /** @param {string[]} lines */
  clear(lines) {
    const { parts } = this;
    parts.line.textContent = lines.length ? "" : "Nothing differs.";
    redraw(parts.changes, ...lines.map((line) => element("li", {}, line)));
    return this.picture.clear();
  }

  // The place on the board that is shown, over which the panel closes.
  show() {
    const { at, found, machine, shown } = this;
    if (!at || !found || !shown) return;
    const { box: { left, low, right, high } } = shown, side = found.sides.findIndex(({ isShown }) => isShown);
    this.parts.dialog.close();
    machine.send({ kind: "lead", name: found.rows[at.pair]?.names[side] ?? null,
      box: { left: left - AROUND, low: low - AROUND, right: right + AROUND, high: high + AROUND } });
  }

  async save() {
    const { compared, found } = this;
    if (!found) return;
    this.isSaving = true;
    this.draw(found);
    this.say("making the report ..");
    try {
      download("compared.html", [await reportOf(compared, found)], "text/html");
      this.say("The report is saved as compared.html.");
    } catch (fault) {
      this.say(`No report is saved: ${faultWords(fault)}`, true);
    }
    this.isSaving = false;
    this.parts.report.disabled = false;
  }

  // Keys of the panel: those of the board are not heard while it is open.
  /** @param {KeyboardEvent} event */
  key(event) {
    const { key, ctrlKey, metaKey, altKey, shiftKey, target } = event;
    if (ctrlKey || metaKey || altKey || target === this.parts.pitch) return undefined;
    switch (key.toLowerCase()) {
      case "n": return this.step(shiftKey ? -1 : 1);
      case "+": case "=": return this.at && this.closer(STEP);
      case "-": return this.at && this.closer(1 / STEP);
      default: return undefined;
    }
  }
}

/** @param {Page.Parts} page */
export function nameComparing(page) {
  const panel = new ComparedPanel(page);
  act("compare-boards", "Tools", "Compare boards: this one with another, place by place", ["Shift+d"], () => panel.open(), whyNot);
}
