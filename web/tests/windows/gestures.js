// What a walk over windows does: each gesture is made of the walk and of one of its windows, as its words and what does it; or null where
// it cannot be made.

// A walk does one thing after another: nothing else changes it while it waits.
/* eslint require-atomic-updates: "off" */

import { gerber } from "../world.js";
import { putBase } from "./database.js";

const OLDER = "camplot ";
const MOST_WINDOWS = 4, MOST_BOARDS = 5, MOST_LINES = 40;

const line = (walk, page) => {
  const unique = ++walk.serial, name = walk.of(page.state.layers)?.name ?? "top";
  const text = walk.of([`move ${name} ${walk.at(4)} ${unique} 0`, `insert ${name} 0 flash 10 ${unique} 0 r0 dark`, `delete ${name} ${walk.at(3)}`, "undo",
    "redo", `move ${name} 0 ${unique} 0`]);
  return [`window ${page.window.id}: ${text}`, () => { page.machine.gesture({ kind: "lines", lines: [text], isAllowed: true }); }];
};

const drop = (walk, page) => {
  if (page.state.told.length > MOST_LINES) return closeBoard(walk, page);
  const files = Array.from({ length: 1 + walk.at(3) }, (_, at) => ({ name: ["a.gtl", "b.gbl", "c.gto"][(at + walk.at(3)) % 3], bytes: gerber(1 + walk.at(9)) }));
  return [`window ${page.window.id}: ${files.length} files are dropped`, () => { page.machine.send({ kind: "open", files, token: `t ${++walk.serial}` }); }];
};

const closeBoard = (walk, page) => [`window ${page.window.id}: the board is closed`, () => { page.machine.gesture({ kind: "closeAll" }); }];

const closeLayer = (walk, page) => page.state.layers.length
  ? [`window ${page.window.id}: a layer is closed`, () => { page.machine.gesture({ kind: "close", name: walk.of(page.state.layers).name }); }] : null;

const add = (walk, page) => page.boards.list.length < MOST_BOARDS ? [`window ${page.window.id}: new`, () => { page.boards.add(); }] : closeBoard(walk, page);

const show = (walk, page) => [`window ${page.window.id}: another tab`, () => { page.boards.show(walk.of(page.boards.list)); }];

const another = (walk) => walk.living.length < MOST_WINDOWS ? ["another window", () => walk.open()] : null;

const adopt = (walk, page) => {
  const free = page.boards.others.filter(({ isHeld }) => !isHeld);
  return free.length ? [`window ${page.window.id}: opens a board that none has`, () => { page.boards.adopt(walk.of(free).key); }] : null;
};

// (a list may be old, so it is asked for what another window may not have any more)
const takeOver = (walk, page) => {
  const held = page.boards.others.filter(({ isHeld }) => isHeld);
  return held.length ? [`window ${page.window.id}: takes a board over`, async () => {
    page.boards.takeOver(walk.of(held).key);
    if (walk.at(2)) await walk.rest(9000);
  }] : null;
};

const closeWindow = (walk, page) => [`window ${page.window.id} is closed`, () => walk.settle(walk.kill(page))];

const reload = (walk, page) => [`window ${page.window.id} is loaded anew`, () => {
  walk.settle(walk.kill(page));
  walk.open(page.window.session);
}];

// A browser in which a page of before was used.
function putOlder(walk) {
  if (walk.browser.bases.has(OLDER)) return;
  const some = (count) => {
    const name = `older ${++walk.serial}`, entries = [{ line: `load top gerber files/${name}`, reply: "ok 5", path: `files/${name}`, file: "given 2", layer: { label: name } },
      ...Array.from({ length: count }, () => ({ line: `move top 0 ${++walk.serial} 0`, reply: "ok" }))];
    return { lines: entries.map((entry, at) => [at + 1, { entries: [entry] }]), files: [["given 2", gerber(5)]], entries };
  };
  const all = Array.from({ length: 1 + walk.at(3) }, () => some(walk.at(4)));
  const boards = all.slice(1).map((_, at) => ({ key: `board ${at + 2}`, number: at + 2, title: null })).filter(() => walk.at(3));
  all.forEach(({ lines, files }, at) => putBase(walk.browser, at ? `${OLDER} board ${at + 1}` : OLDER, { lines, files,
    looks: at ? [] : [["looks", { registry: { boards, shown: "", count: all.length, isFirstGone: false } }]] }));
  for (const { entries } of all) walk.expect(entries);
}

const killBrowser = (walk) => ["the browser is killed", async () => {
  walk.settle(walk.living.flatMap((page) => walk.kill(page)));
  for (const timer of walk.browser.timers.slice()) timer.window.isDead ||= true;
  if (walk.at(3) === 0) putOlder(walk);
  walk.open();
  if (walk.at(2)) walk.open();
  if (walk.at(2)) await walk.rest(9000);
}];

const killWorker = (walk, page) => [`window ${page.window.id}: its worker ends`, async () => {
  page.machine.link?.end("it ended");
  if (walk.at(2)) await walk.rest();
  page.machine.send({ kind: "openAgain" });
}];

const quota = (walk) => [walk.browser.isFull ? "there is room again" : "the quota is full", async () => {
  // (a store of before is brought over whole, or not at all)
  if (walk.older.length) await walk.rest();
  walk.browser.isFull = !walk.browser.isFull;
  walk.hadFull = true;
}];

const keepAgain = (walk, page) => [`window ${page.window.id}: keep again`, () => { page.machine.send({ kind: "keepAgain" }); }];

const startOver = (walk, page) => [`window ${page.window.id}: start over`, () => { page.machine.send({ kind: "ask", question: { kind: "anew" } }); }];

const still = (walk) => {
  const one = walk.of(walk.living);
  if (!one.window.isStill && (walk.living.length < 2 || ![...walk.browser.bases.values()].every(({ active, waiting }) => !active && !waiting.length))) return null;
  return [`window ${one.window.id} ${one.window.isStill ? "goes on" : "stands still"}`, () => {
    walk.promise(one);
    one.window.isStill = !one.window.isStill;
    walk.wasStill = true;
  }];
};

const deleteData = (walk) => walk.at(4) ? null : ["what is kept is deleted", () => {
  walk.deleted++;
  walk.browser.deleteData();
  walk.promises.clear();
  walk.handed.clear();
  walk.older = [];
}];

// Each with its weight.
export const GESTURES = [[30, line], [8, drop], [3, closeBoard], [2, closeLayer], [6, add], [10, show], [5, another], [5, adopt], [8, takeOver], [4, closeWindow],
  [4, reload], [2, killBrowser], [2, killWorker], [2, quota], [3, keepAgain], [1, startOver], [3, still], [1, deleteData]];
