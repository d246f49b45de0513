// The ends of a page in a walk, and the faults of a browser: what is kept is there again, and what is not is told.

// A walk does one thing after another: nothing else changes it while it waits.
/* eslint require-atomic-updates: "off" */

import { CLOSING } from "./by_hand.js";
import { GESTURES, chosen } from "./gestures.js";
import { Tab } from "../tab.js";
import { answer, press, toBoard, typeLine } from "../hands.js";
import { armWrite } from "../faults.js";
import { pickedNow, rest, scriptNow, seen } from "../seen.js";
import { reopened } from "./judge.js";

const PATIENCE = 30;
// Kinds of gestures that write.
const WRITING = new Set(["picked", "insert", "line", "history", "open", "many"]);

// Looks at the page that was opened again, from the beginning of its script, and judges it. Where it was cut off in the
// middle, or not all was kept, it may have another script than before.
async function judgeAgain(walk, before, { isCut = false, isLost = false } = {}) {
  const saved = { ...walk.saved };
  const [done, undone] = [before.model.done.length, before.model.undone.length];
  walk.forget();
  walk.isBroken = false;
  const after = await walk.look();
  walk.before = null;
  if (after.isAsking) {
    walk.seen = after.seen;
    walk.before = { ...before, script: isLost ? "" : before.script, isCut: true };
    // (when it was saved is not known any more)
    walk.saved.isUnsure = true;
    return;
  }
  // The states of before are not known any more, but the texts that were saved are.
  const isAllSaved = after.seen.unsaved === "all saved";
  walk.saved = after.saved = { state: isAllSaved ? walk.model.state : -1, texts: isLost ? new Map() : saved.texts, isUnsure: true };
  walk.check(reopened(isLost ? { ...before, script: "" } : before, after, isCut || isLost)
    .concat(isCut || isLost || (done === walk.model.done.length && undone === walk.model.undone.length) ? []
      : [`it had ${done} steps to undo and ${undone} to redo, and has ${walk.model.done.length} and ${walk.model.undone.length}`]));
}

async function openAgain(walk) {
  const { context } = walk.tab;
  await walk.open(context);
}

const reload = (walk) => ({ words: "load the page anew", isJudged: true, act: async () => {
  const before = walk.state();
  await walk.tab.reload();
  await rest(walk.tab, PATIENCE);
  await judgeAgain(walk, before, { isLost: before.isBroken });
} });

const close = (walk) => ({ words: "close the page, and open it", isJudged: true, act: async () => {
  const before = walk.state();
  await walk.tab.close();
  await openAgain(walk);
  await judgeAgain(walk, before, { isLost: before.isBroken });
} });

const crash = (walk) => ({ words: "crash the page", isJudged: true, act: async () => {
  const before = walk.state();
  await walk.tab.crash();
  await openAgain(walk);
  await judgeAgain(walk, before, { isLost: before.isBroken });
} });

// Something that is done, and perhaps written, before the page ends; without what waits for the page.
async function something(walk) {
  for (;;) {
    const gesture = await chosen(walk.chance, GESTURES)(walk);
    if (WRITING.has(gesture.kind)) return gesture;
  }
}

// The page's process ends in the middle of a write, or is loaded anew while it does something.
const crashInWrite = async (walk) => {
  const what = ["stop before", "stop", "stop when done"][Math.floor(walk.chance() * 3)], at = 1 + Math.floor(walk.chance() ** 2 * 8);
  const inner = await something(walk);
  return { words: `${inner.words}; ended at write ${at}, ${what}`, isJudged: true, paths: inner.paths, act: async () => {
    const before = walk.state(), from = walk.browser.events.length;
    await armWrite(walk.tab, what, at);
    const acting = inner.act(inner).catch(() => {}), still = acting.then(() => rest(walk.tab, PATIENCE)).then(() => false, () => false);
    const ended = await Promise.race([walk.tab.heard("Runtime.bindingCalled", from, PATIENCE).then(() => true, () => false), still]);
    await (ended ? walk.tab.crash() : Promise.all([acting, walk.tab.close()]));
    await acting;
    await openAgain(walk);
    await judgeAgain(walk, before, { isCut: true, isLost: before.isBroken });
  } };
};

const reloadAtOnce = async (walk) => {
  const inner = await something(walk);
  return { words: `${inner.words}; and at once the page is loaded anew`, isJudged: true, paths: inner.paths, act: async () => {
    const before = walk.state();
    const acting = inner.act(inner).catch(() => {});
    await walk.tab.reload();
    await acting;
    await rest(walk.tab, PATIENCE);
    // (where a page goes while a button of the mouse is down, Chromium may not hand the mouse to the next one in its tab)
    if (!await walk.tab.takesMouse()) {
      await walk.tab.close();
      await openAgain(walk);
    }
    await judgeAgain(walk, before, { isCut: true, isLost: before.isBroken });
  } };
};

// After a write that was refused the page says that it is not kept, until a later gesture has kept all of it.
async function judgeRefused(walk, before) {
  await rest(walk.tab, PATIENCE);
  const { question } = await seen(walk.tab);
  if (question) await walk.tab.key("Escape");
  await rest(walk.tab, PATIENCE);
  if ((await seen(walk.tab)).kept) {
    await typeLine(walk.tab, "list");
    await toBoard(walk.tab);
    await rest(walk.tab, PATIENCE);
  }
  const script = await scriptNow(walk.tab), { kept } = await seen(walk.tab);
  await walk.tab.reload();
  await rest(walk.tab, PATIENCE);
  const again = await scriptNow(walk.tab);
  if (!kept) walk.check(again === script ? [] : ["a write was refused, nothing is said of it, and it is not kept"]);
  await judgeAgain(walk, { ...before, script: kept ? "" : script }, { isCut: true, isLost: Boolean(kept) });
}

const refuseWrite = async (walk) => {
  const what = ["throw", "abort"][Math.floor(walk.chance() * 2)], at = 1 + Math.floor(walk.chance() ** 2 * 8), inner = await something(walk);
  return { words: `${inner.words}; write ${at} is refused, ${what}`, isJudged: true, paths: inner.paths, act: async () => {
    const before = walk.state();
    await armWrite(walk.tab, what, at);
    await inner.act(inner).catch(() => {});
    await judgeRefused(walk, before);
  } };
};

// A page that is opened where the browser has no room for more.
const fullQuota = async (walk) => {
  const inner = await something(walk);
  return { words: `open the page where the quota is full; ${inner.words}`, isJudged: true, paths: inner.paths, act: async () => {
    const before = walk.state(), { context } = walk.tab;
    await walk.tab.close();
    await walk.open(context, 1);
    await inner.act(inner).catch(() => {});
    await rest(walk.tab, PATIENCE);
    await walk.tab.call("Storage.overrideQuotaForOrigin", { origin: "file:///" });
    await judgeRefused(walk, before);
  } };
};

// The user clears what the browser has of the page, and goes on: no page that is opened after says that it is as before.
const clearData = async (walk) => {
  const inner = await something(walk);
  return { words: `what is kept is cleared; ${inner.words}`, isJudged: true, paths: inner.paths, act: async () => {
    const before = walk.state();
    await walk.tab.call("Storage.clearDataForOrigin", { origin: "file:///", storageTypes: "indexeddb" });
    await inner.act(inner).catch(() => {});
    // An edit, if the other wrote nothing, by which the page can find it.
    await typeLine(walk.tab, "list").catch(() => {});
    await judgeRefused(walk, before);
  } };
};

const secondPage = (walk) => ({ words: "a second page, with a line in it", isJudged: true, act: async () => {
  const before = walk.state(), { context } = walk.tab;
  const second = await Tab.open(walk.browser, { page: walk.page, context });
  await rest(second, PATIENCE);
  // (its board is its own, and kept)
  const told = async () => { const { kept } = await seen(second); walk.check(kept ? [`a second page says '${kept}'`] : []); };
  await told();
  await typeLine(second, walk.lines.any(walk.model));
  await rest(second, PATIENCE);
  await told();
  await press(second, "[data-act=close-board]");
  await rest(second, PATIENCE);
  walk.check(second.complaints().map((complaint) => `the second page threw: ${complaint}`));
  await second.close();
  const after = { script: await scriptNow(walk.tab), kept: (await seen(walk.tab)).kept };
  walk.check(after.script === before.script && !after.kept ? [] : [`a second page changed the first, which says '${after.kept}'`]);
} });

const startOver = (walk) => ({ words: "start over", isJudged: true, act: async () => {
  await walk.tab.ask("document.body.dataset.ready = 'no'");
  await press(walk.tab, "[data-act=anew]");
  walk.tab.isLeaving = true;
  await answer(walk.tab, /Start over/);
  await walk.tab.arrive();
  await rest(walk.tab, PATIENCE);
  walk.forget();
  walk.before = null;
  walk.isBroken = false;
  const after = await walk.look();
  walk.check(after.script === "" && !after.seen.layers.length && !(await pickedNow(walk.tab)).length ? []
    : [`after starting over it has ${after.seen.layers.length} layers and '${after.script.slice(0, 200)}'`]);
} });

export const ENDS = [[5, reload], [2, close], [3, crash], [5, crashInWrite], [3, reloadAtOnce], [3, refuseWrite], [1, fullQuota],
  [1, clearData], [2, secondPage], [1, startOver], ...CLOSING];
