// The gestures of a walk. Each is chosen by chance from what the page shows, is told in a few words, and is done by the
// mouse, the keys or a drop. `kind` says what it may change:
//
//   pick     what is picked, and nothing else          picked   the items that are picked, and no others
//   insert   new items, which are picked then          line     whatever the line says
//   history  what an undo or a redo brings back        look     nothing of the document or of the pick
//   open     new layers                                save     nothing but lines that write
//   many     several of these at once

import { readFileSync, writeFileSync } from "node:fs";
import { basename, join } from "node:path";
import { BY_HAND } from "./by_hand.js";
import { CTRL, SHIFT, onPage } from "../support.js";
import { archive } from "../archives.js";
import { drop, hold, openFiles, press, saveBare, toBoard, typeLine } from "../hands.js";
import { saving } from "../saving.js";

const count = (walk, least, most) => least + Math.floor(walk.chance() ** 2 * (most - least + 1));
const of = (walk, list) => list[Math.floor(walk.chance() * list.length)];

// A point of the page where an item of a shown layer stands, or any point of the board.
async function aim(walk) {
  const box = JSON.parse(await walk.tab.ask(`(() => { const { left, top, right, bottom } = document.getElementById("marks")
    .getBoundingClientRect(); return JSON.stringify({ left, top, right, bottom }); })()`));
  const shown = walk.seen.layers.filter(({ isShown }) => isShown).map(({ name }) => walk.truth.layers.get(name)?.items ?? [])
    .filter((items) => items.length);
  const any = [box.left + 30 + walk.chance() * (box.right - box.left - 60), box.top + 30 + walk.chance() * (box.bottom - box.top - 60)];
  if (!shown.length || walk.chance() < 0.15) return any;
  const { words } = of(walk, of(walk, shown)), numbers = words.match(/(?<= )-?\d+(?= |$)/g)?.map(Number) ?? [];
  const [x, y] = words.startsWith("region") ? numbers : numbers.slice(1);
  if (y === undefined) return any;
  const [left, top] = await onPage(walk.tab, x, y);
  const isThere = left > box.left + 25 && left < box.right - 5 && top > box.top + 25 && top < box.bottom - 5;
  return isThere ? [Math.round(left), Math.round(top)] : any;
}

const told = (point) => point.map(Math.round).join(",");

const click = async (walk) => {
  const at = await aim(walk), times = count(walk, 1, 4), modifiers = walk.chance() < 0.25 ? SHIFT : 0;
  return { kind: "pick", words: `click ${told(at)}${modifiers ? " with Shift" : ""}, ${times} times`, act: async () => {
    for (let turn = 0; turn < times; turn++) await walk.tab.click(...at, modifiers);
  } };
};

const boxOrMove = async (walk) => {
  const from = await aim(walk), to = await aim(walk);
  return { kind: "many", isDrag: true, words: `drag ${told(from)} to ${told(to)}`, act: () => walk.tab.drag(from, to) };
};

const pan = async (walk) => {
  const from = await aim(walk), to = await aim(walk);
  return { kind: "look", words: `drag ${told(from)} to ${told(to)} by the right button`, act: () => walk.tab.drag(from, to, "right") };
};

const wheel = async (walk) => {
  const at = await aim(walk), deltaY = of(walk, [-300, -120, 120, 300]);
  return { kind: "look", words: `wheel ${deltaY} at ${told(at)}`, act: () => walk.tab.mouse("mouseWheel", ...at, { deltaX: 0, deltaY }) };
};

// A key that is held for some strokes, quickly or as a keyboard repeats.
const keys = (kind, list, most = 6) => (walk) => {
  const [key, modifiers = 0] = of(walk, list), times = count(walk, 1, most), every = of(walk, [0, 0, 0, 33]);
  return { kind, key, times, words: `hold ${modifiers & CTRL ? "Ctrl " : ""}${modifiers & SHIFT ? "Shift " : ""}${key}, ${times} strokes, ${every} ms`,
    act: () => hold(walk.tab, key, times, { modifiers, every }) };
};

const once = (kind, list) => (walk) => {
  const [key, modifiers = 0] = of(walk, list);
  return { kind, key, times: 1, words: `press ${modifiers & CTRL ? "Ctrl " : ""}${modifiers & SHIFT ? "Shift " : ""}${key}`,
    act: () => walk.tab.key(key, modifiers) };
};

const arrows = ["ArrowLeft", "ArrowRight", "ArrowUp", "ArrowDown"].flatMap((key) => [[key], [key, SHIFT]]);

const typed = (walk) => {
  const lines = Array.from({ length: count(walk, 1, 3) }, () => walk.lines.any(walk.model));
  return { kind: "line", words: `type ${lines.join("; ")}`, act: async () => {
    for (const line of lines) await typeLine(walk.tab, line);
    await toBoard(walk.tab);
  } };
};

// A tool with some clicks, and then back to picking. A tool that cannot work in the chosen layer is grey, and then the clicks pick.
const tool = async (walk) => {
  const key = of(walk, ["1", "2", "3", "4", "5", "6"]), points = [];
  for (let turn = count(walk, 1, 5); turn >= 0; turn--) points.push(await aim(walk));
  const gesture = { kind: "insert", words: `tool ${key}, clicks ${points.map(told).join(" ")}, Enter`, act: async () => {
    await walk.tab.key(key);
    await walk.tab.ask("camplot.idle()");
    if (await walk.tab.ask("document.getElementById('marks').dataset.tool") === "pick") gesture.kind = "pick";
    for (const point of points) await walk.tab.click(...point);
    await walk.tab.key("Enter");
    await walk.tab.key("v");
  } };
  return gesture;
};

const pressed = (kind, list) => (walk) => {
  const selector = of(walk, list);
  return { kind, words: `the button ${selector}`, act: () => press(walk.tab, selector).catch(() => {}) };
};

// The menu of what lies at a point: a row of it is chosen, or it is left.
const listedAt = async (walk) => {
  const [x, y] = await aim(walk), downs = count(walk, 0, 3), key = of(walk, ["Enter", "Enter", "Enter", "Escape"]);
  return { kind: "pick", words: `the menu at ${told([x, y])}, ${downs} down, ${key}`, act: async () => {
    await walk.tab.mouse("mouseMoved", x, y);
    for (const type of ["mousePressed", "mouseReleased"]) await walk.tab.mouse(type, x, y, { button: "right", clickCount: 1 });
    await walk.tab.ask("camplot.idle()");
    if (await walk.tab.ask("document.getElementById('lying').hidden")) return;
    for (let turn = 0; turn < downs; turn++) await walk.tab.key("ArrowDown");
    await walk.tab.key(key);
  } };
};

// A handle of what is picked is dragged, or what is picked by one of its points; what it snaps to is waited for.
const gripped = async (walk) => {
  const handles = JSON.parse(await walk.tab.ask(`(() => { const { view, marks } = camplot, { left, top } = document.getElementById("marks").getBoundingClientRect();
    return JSON.stringify(marks.signs.seenHandles().map(({ x, y }) => [left + x / view.density, top + y / view.density])); })()`));
  if (!handles.length) return click(walk);
  const from = of(walk, handles).map(Math.round), to = await aim(walk);
  // (less is a click)
  if (Math.hypot(to[0] - from[0], to[1] - from[1]) < 12) return click(walk);
  return { kind: "picked", words: `drag the handle ${told(from)} to ${told(to)}`, act: async () => {
    await walk.tab.mouse("mouseMoved", ...from);
    await walk.tab.mouse("mousePressed", ...from, { button: "left", clickCount: 1 });
    for (let turn = 0; turn < 2; turn++) {
      await walk.tab.mouse("mouseMoved", to[0] - 1 + turn, to[1], { button: "left", buttons: 1 });
      await walk.tab.wait("!camplot.pointer.snaps.isUnderWay", 60);
    }
    await walk.tab.mouse("mouseReleased", ...to, { button: "left", clickCount: 1 });
  } };
};

const layerRow = (walk) => {
  const at = Math.floor(walk.chance() * walk.seen.layers.length), selector = of(walk, ["#layers .name", "#layers input[type=checkbox]", "#layers .only"]);
  return { kind: "look", words: `${selector}, number ${at}`, act: () => press(walk.tab, selector, at).catch(() => {}) };
};

const listed = (walk) => {
  const at = Math.floor(walk.chance() * 12);
  return { kind: "pick", words: `item ${at} of the list`, act: async () => {
    await walk.tab.ask("document.getElementById('items-panel').open = true");
    await new Promise((done) => setTimeout(done, 60));
    await press(walk.tab, "#items button", at).catch(() => {});
  } };
};

// The comparison with an earlier step, or of two.
const compare = (walk) => {
  const steps = walk.seen.steps.length, back = 1 + Math.floor(walk.chance() * Math.min(steps, 4));
  if (steps && walk.chance() < 0.6) {
    return { kind: "look", compares: { back }, words: `compare with ${back} steps before`,
      act: () => press(walk.tab, "#history li:not(.undone) button", steps - back).catch(() => {}) };
  }
  return { kind: "look", compares: { two: true }, words: "compare two", act: async () => {
    await walk.tab.ask("document.getElementById('two-panel').open = true");
    await press(walk.tab, "#compare-two").catch(() => {});
  } };
};

export const dropped = (walk) => {
  const folder = of(walk, walk.files), most = Math.min(folder.length, walk.chance() < 0.2 ? 20 : 4);
  const paths = [...folder].sort(() => walk.chance() - 0.5).slice(0, count(walk, 1, most));
  const isChosen = walk.chance() < 0.4, isPacked = walk.chance() < 0.2;
  return { kind: "open", paths, words: `${isChosen ? "choose" : "drop"} ${isPacked ? "a ZIP file of " : ""}${paths.map((path) => path.replace(/.*\/(?=[^/]+\/)/, "")).join(", ")}`,
    act: () => (isChosen ? openFiles : drop)(walk.tab, isPacked ? [packed(walk, paths)] : paths) };
};

// A ZIP file of these files, every second one in a folder.
function packed(walk, paths) {
  const path = join(walk.room, `made-${Math.floor(walk.chance() * 1e9)}.zip`);
  writeFileSync(path, archive(paths.map((each, at) => ({ name: `${at % 2 ? "in/" : ""}${basename(each)}`, bytes: readFileSync(each), method: at % 3 ? 8 : 0 }))));
  return path;
}

const saved = (walk) => {
  const [name, act] = of(walk, [["all", () => saveBare(walk.tab)], ["script", () => walk.tab.key("e", CTRL)]]);
  return { kind: "save", saves: name, words: `save ${name}`, act: async (gesture) => {
    if (!walk.seen.layers.length && name === "all") return;
    gesture.file = await saving(walk.tab, act, walk.room);
  } };
};

// Some gestures, each begun before the one in front of it is done.
const burst = async (walk) => {
  const parts = [];
  for (let turn = count(walk, 2, 4); turn > 0; turn--) {
    parts.push(await of(walk, [click, typed, dropped, keys("picked", [["Delete"], ["]"], ["x"]]), once("history", [["z", CTRL], ["y", CTRL]]),
      once("insert", [["v", CTRL]])])(walk));
  }
  return { kind: "many", paths: parts.flatMap(({ paths = [] }) => paths), words: `at once: ${parts.map(({ words }) => words).join("; ")}`,
    act: async () => {
      for (const { act } of parts) await act();
    } };
};

// How often each is made, of all.
export const GESTURES = [
  [14, click], [6, boxOrMove], [2, pan], [3, wheel], [10, keys("picked", [["Delete"], ["Backspace"], ["]"], ["["], ["d"], ["x"], ...arrows])],
  [2, once("pick", [["a", CTRL], [" "], ["Escape"]])], [3, once("look", [["c", CTRL]])], [4, keys("insert", [["v", CTRL]], 4)],
  [8, keys("history", [["z", CTRL], ["z", CTRL], ["y", CTRL]], 8)], [12, typed], [4, tool],
  [3, pressed("history", ["[data-act=undo]", "[data-act=redo]"])], [2, pressed("picked", ["[data-act=delete]"])],
  [4, once("look", [["0"], ["f"], ["+"], ["-"], ["o"], ["t"], ["a"], ["l"], ["m"], ["h"], ["v"], ["PageUp"], ["PageDown"]])],
  [3, once("look", [["T", SHIFT], ["z"], ["O", SHIFT], ["m"], ["v"]])], [3, listedAt], [4, gripped],
  [2, pressed("look", ["#drills-panel summary", "#apertures-panel summary", "#apertures tbody button", "#drills tbody button"])],
  [1, pressed("pick", ["#apertures .only", "#drills .only"])],
  [3, layerRow], ...BY_HAND, [2, listed], [4, compare], [8, dropped], [4, saved], [5, burst],
];

export function chosen(chance, list = GESTURES) {
  let at = chance() * list.reduce((sum, [weight]) => sum + weight, 0);
  return (list.find(([weight]) => (at -= weight) < 0) ?? list[list.length - 1])[1];
}
