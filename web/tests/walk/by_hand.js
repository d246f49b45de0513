// Gestures of a walk at the layers themselves: their names, what they show, their places in the pile; and layers and boards
// that are closed, which takes lines out of the script.

// A walk does one thing after another: nothing else changes it while it waits.
/* eslint require-atomic-updates: "off" */

import { answer, press, toBoard } from "../hands.js";
import { reopened } from "./judge.js";
import { rest, seen } from "../seen.js";

const PATIENCE = 30;

const of = (walk, list) => list[Math.floor(walk.chance() * list.length)];

// Chooses a layer of the list, whose rows stand from the top down, and unfolds what can be set of it.
async function choose(walk, name) {
  const { layers } = await seen(walk.tab), at = layers.reverse().findIndex((layer) => layer.name === name);
  await press(walk.tab, "#layers .name", at);
  await rest(walk.tab, PATIENCE);
  await walk.tab.ask("document.getElementById('layer-panel').open = true");
}

const anyLayer = (walk) => of(walk, walk.seen.layers)?.name;

const named = (walk) => {
  const name = anyLayer(walk), label = of(walk, ["front", "<b>back</b>", "", "top copper"]);
  return { kind: "look", words: `call ${name} '${label}'`, act: async () => {
    if (!name) return;
    await choose(walk, name);
    await press(walk.tab, "#layer-label");
    await walk.tab.ask("document.getElementById('layer-label').select()");
    await (label ? walk.tab.type(label) : walk.tab.key("Delete"));
    await walk.tab.key("Enter");
    await toBoard(walk.tab);
  } };
};

const shown = (walk) => {
  const name = anyLayer(walk), shows = of(walk, ["top", "bottom", "in1", "in7", "top-silk", "outline", "other", "plated"]);
  return { kind: "line", words: `${name} shows ${shows}`, act: async () => {
    if (!name) return;
    await choose(walk, name);
    await walk.tab.ask(`(() => { const choice = document.getElementById("layer-function"); choice.value = "${shows}";
      choice.dispatchEvent(new Event("change")); })()`);
    await toBoard(walk.tab);
  } };
};

const coloured = (walk) => {
  const at = Math.floor(walk.chance() * walk.seen.layers.length), colour = of(walk, ["#123456", "#ffffff", "#d8433b"]);
  return { kind: "look", words: `colour ${colour} of layer ${at}`, act: () => walk.tab.ask(`(() => {
    const input = document.querySelectorAll("#layers input[type=color]")[${at}];
    if (input) { input.value = "${colour}"; input.dispatchEvent(new Event("input")); } })()`) };
};

const raised = (walk) => {
  const selector = of(walk, ["#layer-up", "#layer-down"]);
  return { kind: "look", words: `the button ${selector}`, act: async () => {
    await walk.tab.ask("document.getElementById('layer-panel').open = true");
    await press(walk.tab, selector).catch(() => {});
  } };
};

// Looks at the page from the beginning of its script, after lines were taken out of it: the layers that are left are what they
// were, and those of `gone` are gone.
async function judgeClosed(walk, before, gone) {
  const { texts } = walk.saved;
  walk.forget();
  walk.before = null;
  const after = await walk.look(), isAllSaved = after.seen.unsaved === "all saved";
  for (const name of gone) texts.delete(name);
  walk.saved = after.saved = { state: isAllSaved ? walk.model.state : -1, texts, isUnsure: true };
  const wrong = [...before.truth.layers].filter(([name, { text }]) => gone.includes(name) ? after.truth.layers.has(name)
    : after.truth.layers.get(name)?.text !== text).map(([name]) => name);
  const named = after.script.split("\n").filter((line) => gone.includes(line.split(" ")[1]));
  walk.check([...reopened({ ...before, script: "" }, after, true), ...wrong.length ? [`after closing, ${wrong} is another`] : [],
    ...named.length ? [`the script still names what was closed: ${named[0]}`] : []]);
}

async function sayYes(walk) {
  await rest(walk.tab, PATIENCE);
  if ((await seen(walk.tab)).question) await answer(walk.tab, /^Close/);
  await rest(walk.tab, PATIENCE);
}

const closeLayer = (walk) => {
  const name = anyLayer(walk);
  return { words: `close the layer ${name}`, isJudged: true, act: async () => {
    const before = walk.state();
    if (!name) return;
    await choose(walk, name);
    await press(walk.tab, "#layer-close");
    await sayYes(walk);
    await judgeClosed(walk, before, before.model.group ? [] : [name]);
  } };
};

const closeBoard = (walk) => ({ words: "close the board", isJudged: true, act: async () => {
  const before = walk.state();
  await press(walk.tab, "[data-act=close-board]");
  await sayYes(walk);
  await judgeClosed(walk, before, [...before.truth.layers.keys()]);
} });

// Another board in a tab next to this one, which is left for this one, shown again, and closed: this board stays as it is.
const otherBoard = (walk) => ({ kind: "look", words: "another board, and back", act: async () => {
  const { tab } = walk, shownTab = () => tab.ask("[...document.querySelectorAll('#tabs button')].findIndex((one) => one.getAttribute('aria-selected') === 'true')");
  await press(tab, "[data-act=new-board]").catch(() => {});
  await rest(tab, PATIENCE);
  for (const at of [0, 1]) {
    if (await shownTab() < 0) return;
    await press(tab, "#tabs button", at);
    await rest(tab, PATIENCE);
  }
  if (await shownTab() === 1) await press(tab, "[data-act=close-board]");
  await rest(tab, PATIENCE);
} });

export const BY_HAND = [[2, named], [3, shown], [1, coloured], [2, raised], [3, closeLayer], [2, otherBoard]];
export const CLOSING = [[1, closeBoard]];
