// Two boards that are compared on the page: copies of a board in which something is planted, and what the panel shows of them.

import { join } from "node:path";
import { mkdirSync, writeFileSync } from "node:fs";
import { drop, middleOf, press } from "./hands.js";
import { give, kicad, openPage, room, settle } from "./support.js";
import { zipOf } from "../zip/index.js";

export const TOP = "nightlight-F_Cu.gbr", HOLES = "nightlight-PTH.drl", SILK = "nightlight-F_Silkscreen.gbr", COUNT = 8;

// The files of a board with something in place of something that they have: [name, from, to].
export function planted(...changes) {
  const files = kicad().map(({ name, bytes }) => ({ name, text: bytes.toString("latin1") }));
  for (const [name, from, to] of changes) {
    const file = files.find((one) => one.name === name);
    if (!file?.text.includes(from)) throw new Error(`${name} has no ${from}`);
    file.text = file.text.replace(from, to);
  }
  return files.map(({ name, text }) => ({ name, bytes: Buffer.from(text, "latin1") }));
}

// Files in a ZIP file on the disk; its path.
export function zipped(files, name = "rev2.zip") {
  const path = join(room(), name);
  writeFileSync(path, Buffer.concat(zipOf(files)));
  return path;
}

// Files in a folder on the disk; its path.
export function inFolder(files, name = "rev2") {
  const path = join(room(), name);
  mkdirSync(path);
  for (const file of files) writeFileSync(join(path, file.name), file.bytes);
  return path;
}

// A page with a board, of examples/kicad where no other is given.
export async function withBoard(files = kicad(), sides = { width: 1440, height: 900 }) {
  const browser = await openPage(sides);
  // (the colours that `colours` knows are those of the dark look)
  if (await browser.ask("document.documentElement.dataset.look") === "light") await browser.key("l");
  await give(browser, files);
  await settle(browser);
  return browser;
}

const COMPARE = "#tools [data-act=compare-boards]";

export const isDone = (browser, seconds = 120) =>
  browser.wait("/^\\d+ pairs? of layers/.test(document.getElementById('two-boards-said').textContent)", seconds);

// Drops files or folders, by their paths, on the command.
export async function dropOnCompare(browser, ...paths) {
  await drop(browser, paths, await middleOf(browser, COMPARE));
  await isDone(browser);
}

export const openPanel = (browser) => press(browser, COMPARE);

// What the panel says of the pairs that are not the same in all.
export const differing = async (browser) => (await told(browser)).pairs.filter(({ words }) => words !== "the same file");

// All that the panel says.
export async function told(browser) {
  return JSON.parse(await browser.ask(`JSON.stringify((() => {
    const words = (id) => document.getElementById(id).textContent;
    return { said: words("two-boards-said"), titles: words("two-boards-titles"), where: words("two-boards-where"), line: words("two-boards-line"),
      isOpen: document.getElementById("two-boards").open, changes: [...document.querySelectorAll("#two-boards-changes li")].map((one) => one.textContent),
      alone: [...document.querySelectorAll("#two-boards-pairs .alone")].map((one) => one.textContent),
      pairs: [...document.querySelectorAll("#two-boards-pairs [data-outcome]")].map((one) => ({ title: one.querySelector("b").textContent,
        outcome: one.dataset.outcome, words: one.querySelector("span").textContent, besides: [...one.querySelectorAll("small")].map((line) => line.textContent) })) };
  })())`));
}

// Waits until a place of a pair is shown with its picture.
export const atPlace = (browser, pair, place) => browser.wait(`document.getElementById("two-boards-place").dataset.place === "${pair} ${place}"`, 60);

// How many pixels of the picture have which colour, of the part between two columns of a thousand.
export const colours = (browser, from = 0, to = 1000) => browser.ask(`(() => {
  const canvas = document.querySelector(".two-boards-canvas"), { width, height } = canvas;
  const left = Math.round(width * ${from} / 1000), { data } = canvas.getContext("2d").getImageData(left, 0, Math.max(1, Math.round(width * ${to} / 1000) - left), height);
  const found = { both: 0, a: 0, b: 0, frame: 0 };
  for (let at = 0; at < data.length; at += 4) {
    const [red, green, blue] = data.subarray(at, at + 3);
    if (red > 200 && green < 160 && blue < 160) found.a++;
    else if (blue > 200 && red < 130) found.b++;
    else if (red > 220 && green > 220 && blue < 200) found.frame++;
    else if (red > 140 && Math.abs(red - green) < 20 && Math.abs(green - blue) < 20) found.both++;
  }
  return found;
})()`);
