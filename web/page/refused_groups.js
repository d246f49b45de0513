// Refused files that ask for the same: one form for all of them, with what comes of its choices for each.

import { button, byId, element, field, redraw } from "./dom.js";
import { CHOICES } from "../convert/index.js";
import { askingAlike } from "../machine/index.js";
import { asking, choicesOf, fieldsOf, fill, firstOf, forgetFirst, refusedOf, stoppedWords, waysFor, waysOffered } from "./refused_files.js";
import { plural } from "../board/index.js";

// So many changes or refusals of each file are told one by one.
const SHOWN = 12;

/** @param {Board.LayerKind} kind @param {string[]} asks */
const labelsOf = (kind, asks) => CHOICES[kind].filter(({ name }) => asks.includes(name)).map(({ label }) => label).join(", ");

// What comes of the choices for a file, in words, with its changes or refusals behind them.
/** @param {string} name @param {Page.Converted} found */
function outcome(name, found) {
  const told = found === null ? [] : found.changes ?? found.refusals ?? [];
  const words = found === null ? "needs no change, and is refused all the same" : found.bytes ? plural(told.length, "change")
    : `cannot be converted so: ${told[0]}`;
  const shown = told.slice(0, SHOWN).map((line) => element("li", {}, line));
  const more = told.length > SHOWN ? [element("li", {}, `and ${told.length - SHOWN} more`)] : [];
  return element("li", { className: found?.bytes ? "" : "fault" }, element("details", {},
    element("summary", {}, element("b", {}, name), ` ${words}`), element("ul", { className: "changes" }, ...shown, ...more)));
}

// The part of the question that converts: each file by the choices in the form, one after another.
class Conversions {
  /**
   * @param {Board.LayerKind} kind
   * @param {{ id: number, name: string, bytes: Uint8Array }[]} files
   * @param {import("./refused_files.js").Field[]} fields
   * @param {Page.Allow} allow
   */
  constructor(kind, files, fields, allow) {
    this.kind = kind;
    this.files = files;
    this.fields = fields;
    this.allow = allow;
    this.turn = 0;
    /** @type {{ id: number, bytes: Uint8Array }[]} */
    this.made = [];
    /** @type {(names: Set<string>) => void} */
    this.asked = () => {};
    this.seen = element("div", { "aria-live": "polite" });
  }

  // Shows what `convert` makes of each file, unless it is asked anew meanwhile.
  /** @param {(file: { bytes: Uint8Array }) => Promise<Page.Converted>} convert */
  async show(convert) {
    const mine = ++this.turn, rows = [], asks = new Set();
    this.made = [];
    this.allow(false);
    for (const file of this.files) {
      this.seen.replaceChildren(element("p", { className: "working" }, `${plural(rows.length, "file")} of ${this.files.length} converted ..`));
      const found = await convert(file).catch((fault) => /** @type {Page.Converted} */ ({ refusals: [stoppedWords(fault)] }));
      if (mine !== this.turn) return;
      for (const { name } of found?.asks ?? []) asks.add(name);
      if (found?.bytes) this.made.push({ id: file.id, bytes: found.bytes });
      rows.push(outcome(file.name, found));
    }
    const left = this.files.length - this.made.length, words = this.made.length === 0 ? "None of them can be converted so."
      : left ? `${plural(this.made.length, "file")} can be converted so; ${plural(left, "file")} would stay refused.`
        : "All of them can be converted so. These changes are made, and no others:";
    this.seen.replaceChildren(element("p", this.made.length ? {} : { className: "fault" }, words),
      element("ul", { className: "changes", id: "outcomes" }, ...rows));
    this.allow(this.made.length > 0);
    this.asked(asks);
  }

  async renew() {
    asking.stop();
    const choices = await choicesOf(this.fields);
    return this.show(({ bytes }) => asking.call("converted", { layer: this.kind, bytes, choices }));
  }
}

// The question how several refused files are to be converted: by the same choices. Its answer has the bytes of each.
/** @param {Machine.State} state @param {Machine.QuestionOf<"convertAll">} question @param {Page.Allow} allow @returns {Page.Dialogue} */
export function convertAllQuestion(state, question, allow) {
  const entries = state.refused.filter(({ id }) => question.refused.includes(id)).map(({ id }) => refusedOf(state, id)), [first] = entries;
  if (!first) throw new Error("no file is refused any more");
  const { layer: { kind }, offer } = first, files = entries.map(({ id, layer, bytes }) => ({ id, name: layer.fileName, bytes }));
  const asks = offer?.asks ?? [], fields = fieldsOf(kind);
  /** @param {{ name: string }} choice */
  const isAsked = ({ name }) => asks.includes(name);
  const conversions = new Conversions(kind, files, fields, allow), renew = () => conversions.renew();
  const offered = element("div", {}), form = element("div", { id: "answers" });
  /** @param {import("./refused_files.js").Field[]} some */
  const rowsOf = (some) => some.map(({ label, input }) => field(label, input)), others = fields.filter((choice) => !isAsked(choice));
  const choose = element("details", { id: "choices" }, element("summary", {}, "Choices"), ...rowsOf(others));
  form.append(...rowsOf(fields.filter(isAsked)), choose);
  // An answer may bring the next thing to ask for.
  conversions.asked = (names) => { choose.open ||= others.some(({ name }) => names.has(name)); };
  form.onchange = form.oninput = renew;
  conversions.show(({ bytes }) => firstOf(kind, bytes, asking).then(({ converted }) => converted));
  waysFor(kind, first.bytes, asks).then((found) => offered.replaceChildren(...waysOffered(found, (choices) => {
    fill(fields, choices);
    renew();
  }, "They can be read so:")));
  const what = asks.length ? `They do not say: ${labelsOf(kind, asks)}. What you answer holds for all of them.`
    : "What you choose holds for all of them.";
  return {
    title: `Convert ${plural(files.length, "file")}?`, parts: [element("p", {}, what), offered, form, conversions.seen],
    choices: [["Convert and open them", "yes"], ["Leave them out", "no"]],
    answer: () => ({ made: conversions.made }),
    end: () => {
      conversions.turn++;
      asking.stop();
      for (const { bytes } of files) forgetFirst(bytes);
    },
  };
}

/** @param {Page.Runner} machine */
export function listenToGroups(machine) {
  machine.panel(({ refused }) => [refused], (state) => {
    redraw(byId("refused-groups"), ...askingAlike(state).map(({ key, kind, asks, entries }) => element("p", { "data-row": key },
      `${plural(entries.length, kind === "drill" ? "drill file" : "Gerber file")} ask for the same: ${labelsOf(kind, asks)}. `,
      button("answer for all ..", () => machine.send({ kind: "offerAll", refused: entries.map(({ id }) => id) }),
        { "aria-label": `answer for all of ${plural(entries.length, "file")}: ${labelsOf(kind, asks)}` }))));
  });
}
