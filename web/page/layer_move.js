// The dialogue that moves, turns or mirrors a whole layer. It says before what that means, and where the layer lies then.

import { element, field } from "./dom.js";
import { lengthIn, lengthText, middleFor, plural } from "../board/index.js";

/** @type {[value: string, label: string][]} */
const TURNS = [["r0", "not"], ["r90", "a quarter counterclockwise"], ["r180", "a half"], ["r270", "a quarter clockwise"],
  ["m0", "mirrored left and right"], ["m180", "mirrored top and bottom"]];

/** @type {[value: Machine.LayerChange["about"], label: string][]} */
const ABOUT = [["all", "the middle of all layers"], ["layer", "the middle of the layer"], ["zero", "the zero point"]];

/** @param {string} id @param {[value: string, label: string][]} options */
const choice = (id, options) => element("select", { id }, ...options.map(([value, label]) => element("option", { value }, label)));

// Where a turn takes a box, about a middle that is given twice, as `middleFor` has it.
/** @param {Board.Box} box @param {string} turn @param {Board.Point} middle @returns {Board.Box} */
function turnedBox({ left, low, right, high }, turn, { x, y }) {
  switch (turn) {
    case "r90": return boxAt((x + y) / 2 - high, (y - x) / 2 + left, (x + y) / 2 - low, (y - x) / 2 + right);
    case "r180": return boxAt(x - right, y - high, x - left, y - low);
    case "r270": return boxAt((x - y) / 2 + low, (x + y) / 2 - right, (x - y) / 2 + high, (x + y) / 2 - left);
    case "m0": return boxAt(x - right, low, x - left, high);
    case "m180": return boxAt(left, y - high, right, y - low);
    default: return { left, low, right, high };
  }
}

/** @type {(left: number, low: number, right: number, high: number) => Board.Box} */
const boxAt = (left, low, right, high) => ({ left, low, right, high });

/** @param {Machine.QuestionOf<"whole">} question @param {Machine.LayerChange} change @returns {Board.Box} */
function boxAfter({ box, all }, { turn, about, dx, dy }) {
  const middle = about === "zero" ? { x: 0, y: 0 } : middleFor(about === "all" ? all : box, turn), to = turnedBox(box, turn, middle);
  return boxAt(to.left + dx, to.low + dy, to.right + dx, to.high + dy);
}

/** @param {Machine.QuestionOf<"whole">} question */
function limitWords({ count, repeats, isDrill }) {
  const loses = isDrill ? "" : " A turn deletes each item and inserts it again, so what the file says of items, as their nets, goes with it; a move keeps it.";
  const said = `${plural(count, "item")}: one group of lines, and one step to undo.${loses}`;
  return repeats ? [said, `${plural(repeats, "repeat")}, which no line inserts: the layer can be moved, and not turned.`] : [said];
}

/** @param {Machine.State} state @param {Machine.QuestionOf<"whole">} question @param {Page.Allow} allow @returns {Page.Dialogue} */
export function wholeQuestion({ unit }, question, allow) {
  const turn = choice("whole-turn", question.repeats ? TURNS.slice(0, 1) : TURNS), about = choice("whole-about", ABOUT);
  const dx = element("input", { type: "text", value: "0", id: "whole-dx", spellcheck: false });
  const dy = element("input", { type: "text", value: "0", id: "whole-dy", spellcheck: false });
  const lies = element("p", { id: "whole-lies", role: "status" });
  /** @returns {Machine.LayerChange | null} */
  const changeOf = () => {
    const [x, y] = [dx, dy].map((input) => lengthIn(input.value, unit)), chosen = ABOUT.find(([value]) => value === about.value);
    return x === null || y === null || x === undefined || y === undefined || !chosen ? null : { turn: turn.value, about: chosen[0], dx: x, dy: y };
  };
  const show = () => {
    const change = changeOf(), isAny = change !== null && (change.turn !== "r0" || change.dx !== 0 || change.dy !== 0);
    about.disabled = turn.value === "r0";
    lies.textContent = change ? liesWords(boxAfter(question, change), unit) : "A step is a length, as 2.54, or with a unit, as 100 mil.";
    allow(isAny);
  };
  for (const input of [turn, about, dx, dy]) input.oninput = show;
  queueMicrotask(show);
  return {
    title: `Move, turn or mirror ${question.label}`,
    parts: [...limitWords(question).map((words) => element("p", {}, words)), field("turned", turn), field("about", about),
      field(`then to the right, ${unit}`, dx), field(`and up, ${unit}`, dy), lies],
    choices: [["Change the layer", "yes"], ["Cancel", "no"]],
    answer: () => {
      const change = changeOf();
      return change ? { change } : { why: "A step is a length, as 2.54, or with a unit, as 100 mil." };
    },
  };
}

/** @param {Board.Box} box @param {string} unit */
function liesWords({ left, low, right, high }, unit) {
  const [x, y, toX, toY] = [left, low, right, high].map((edge) => lengthText(Math.round(edge), unit));
  return `It lies from ${x}, ${y} to ${toX}, ${toY} ${unit} then.`;
}
