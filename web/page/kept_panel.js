// What a person must know for as long as it is so: what the browser does not keep, lines that it kept and that are refused
// now, a station that stopped, and what failed.

import { button, byId, element, redraw } from "./dom.js";
import { plural } from "../board/index.js";

// So many lines are told one by one, so that the notice does not cover the board.
const LINES = 5;

/** @param {Machine.State["spoiled"]} spoiled */
function spoiledWords(spoiled) {
  const told = spoiled.slice(0, LINES).map(({ line, reply }) => `${line} (${reply})`).join("; ");
  const verb = spoiled.length === 1 ? "is" : "are", more = spoiled.length > LINES ? "; .." : "";
  return `${plural(spoiled.length, "line")} of what the browser kept ${verb} refused now and left out: ${told}${more}. Lines `
    + "behind them were played, and may have changed other items than before.";
}

/** @param {string} why */
const stoppedWords = (why) => `The station stopped (${why}). Nothing that stands in the script is lost, but nothing more is `
  + "done until it is opened again.";

/** @param {string[]} faults */
const faultWords = (faults) =>
  `Something in the page failed (${faults[faults.length - 1]}). What was done before stands in the script.`;

/** @typedef {[label: string, run: () => void]} Notice a button of one */

// Each notice with its words and its buttons.
/** @param {Machine.State} state @param {Page.Runner} machine @param {() => void} saveScript */
function notices({ kept, spoiled, station, faults, isLeaving }, machine, saveScript) {
  if (isLeaving) return [];
  /** @type {(label: string, kind: "openAgain" | "keepAgain" | "dismiss") => Notice} */
  const sends = (label, kind) => [label, () => machine.send({ kind })];
  const again = sends("open again", "openAgain"), dismiss = sends("understood", "dismiss");
  /** @type {Notice} */
  const save = ["save the script", saveScript];
  /** @type {[words: string, buttons: Notice[]][]} */
  const all = [];
  if (kept.why) all.push([kept.why, kept.isOpen ? [save, sends("keep again", "keepAgain")] : [save]]);
  if (spoiled.length) all.push([spoiledWords(spoiled), [save, dismiss]]);
  if (station.why) all.push([stoppedWords(station.why), [save, again]]);
  if (faults.length) all.push([faultWords(faults), [save, again, dismiss]]);
  return all;
}

// What is under way, where it takes long: a group can be stopped.
/** @param {Machine.State} state */
function showBusy({ work }) {
  const isGroup = work?.stage === "lines" && work.isGroup;
  byId("busy").hidden = !isGroup;
  if (isGroup) byId("busy-words").textContent = `${plural(work.lines.length, "edit")} under way, Escape stops ..`;
}

/** @param {Page.Runner} machine @param {() => void} saveScript */
export function listenToKept(machine, saveScript) {
  /** @param {Machine.State} state */
  const parts = ({ kept, spoiled, station, faults, isLeaving }) =>
    [kept.why, kept.isOpen, spoiled, station.why, faults, isLeaving];
  machine.panel(parts, (state) => {
    redraw(byId("kept"), ...notices(state, machine, saveScript).map(([words, buttons]) =>
      element("p", {}, element("span", {}, words), ...buttons.map(([label, run]) => button(label, run)))));
  });
  machine.panel(({ work }) => [work?.stage === "lines" && work.isGroup], showBusy);
  byId("stop").onclick = () => machine.send({ kind: "stop" });
}
