// The list of layers and how they are drawn: groups that are shown or hidden at once, names as people have them, and outlines.

import assert from "node:assert/strict";
import { SHIFT, give, gerber, kicad, openPage, settle } from "./support.js";
import { press } from "./hands.js";
import { screen } from "./fingers.js";
import { stroke, strokes } from "./keyboard.js";
import { rest } from "./seen.js";
import { suite, test } from "../../tools/tests/harness.js";
import { tabs } from "./tab.js";

const open = tabs();

const shown = (browser) => browser.ask("camplot.state.layers.filter((layer) => layer.isShown).map(({ name }) => name)");
const groups = async (browser) => JSON.parse(await browser.ask("JSON.stringify([...document.querySelectorAll('#layer-groups label')].map((one) => "
  + "[one.dataset.row, one.querySelector('input').indeterminate ? 'some' : one.querySelector('input').checked ? 'all' : 'none']))"));
const says = (fields) => Buffer.from(`%TF.FileFunction,${fields}*%\n${gerber("X0Y0D03*")}`);

async function withLayers(sides = { width: 1440, height: 900 }) {
  const browser = await openPage(sides), names = ["Copper,L1,Top", "Copper,L2,Inr", "Copper,L3,Inr", "Copper,L4,Inr", "Copper,L5,Inr", "Copper,L6,Bot", "Soldermask,Top",
    "Soldermask,Bot", "Paste,Top", "Paste,Bot", "Legend,Top", "AssemblyDrawing,Top", "AssemblyDrawing,Bot", "FabricationDrawing"];
  await give(browser, [...names.map((fields, at) => ({ name: `layer-${at}.gbr`, bytes: says(fields) })),
    { name: "a_rather_long_name_of_a_project-revision_12-User_Drawings_of_the_house.gbr", bytes: gerber("X0Y0D03*") }], true);
  await settle(browser);
  return browser;
}

suite("groups of layers", () => {
  test("are shown or hidden at once, by their boxes and by the list of commands", async () => {
    const browser = await withLayers();
    await press(browser, "[data-act=all]");
    assert.deepEqual(await groups(browser), [["copper", "all"], ["mask", "all"], ["silkscreen", "all"], ["paste", "all"], ["drawings", "all"]]);
    const all = await shown(browser);
    await press(browser, "#layer-groups [data-row=copper] input");
    assert.deepEqual(await shown(browser), all.filter((name) => !/^(top|bottom|in\d)$/.test(name)));
    assert.deepEqual((await groups(browser))[0], ["copper", "none"]);
    await press(browser, "#layer-groups [data-row=copper] input");
    assert.deepEqual(await shown(browser), all);
    // Of one that is shown in part all are shown first.
    await press(browser, "#layers [data-row=top-mask] input");
    assert.deepEqual((await groups(browser))[1], ["mask", "some"]);
    await press(browser, "#layer-groups [data-row=mask] input");
    assert.deepEqual([await shown(browser), (await groups(browser))[1]], [all, ["mask", "all"]]);
    await stroke(browser, "k", 2);
    await strokes(browser, "all of paste");
    await stroke(browser, "Enter");
    assert.deepEqual(await shown(browser), all.filter((name) => !/-paste$/.test(name)));
    assert.deepEqual(browser.complaints(), []);
  });
});

suite("names of layers", () => {
  test("are those that people have, and are wrapped between words", async () => {
    for (const [width, height] of [[1440, 900], [1024, 700]]) {
      const browser = await withLayers({ width, height });
      const names = await browser.ask("[...document.querySelectorAll('#layers .name b')].map((one) => one.textContent)");
      for (const name of ["assembly drawing, top", "assembly drawing, bottom", "fabrication drawing", "inner copper 4", "top paste"]) assert.ok(names.includes(name), `${name}: ${names}`);
      // Each line of a name ends with a word, and nothing of it is out of its button.
      const faults = await browser.ask(`[...document.querySelectorAll("#layers .name")].flatMap((name) => {
        const text = document.createTreeWalker(name, NodeFilter.SHOW_TEXT), range = document.createRange(), found = [];
        if (name.scrollWidth > name.clientWidth + 1) found.push(name.textContent + " is cut");
        for (let node = text.nextNode(), last = null; node; node = text.nextNode()) {
          for (let at = 0; at < node.length; at++) {
            range.setStart(node, at);
            range.setEnd(node, at + 1);
            const { top, width } = range.getBoundingClientRect(), letter = node.data[at];
            if (last && width && top > last.top + 5 && /[\\p{L}\\p{N}]/u.test(last.letter) && /[\\p{L}\\p{N}]/u.test(letter)) found.push(name.textContent + " at " + at);
            last = { top: width ? top : last?.top ?? top, letter };
          }
        }
        return found;
      })`);
      assert.deepEqual(faults, []);
      await screen(browser, `layers-${width}`);
      assert.deepEqual(browser.complaints(), []);
    }
  });

  test("of two that are called the same, the second has its file's name", async () => {
    const browser = await openPage();
    await give(browser, [{ name: "a.gbr", bytes: says("AssemblyDrawing,Top") }, { name: "b.gbr", bytes: says("AssemblyDrawing,Top") }, { name: "c.gbr", bytes: says("AssemblyDrawing,Bot") }]);
    await settle(browser);
    assert.deepEqual((await browser.ask("camplot.state.layers.map(({ label }) => label)")).sort(),
      ["assembly drawing, bottom", "assembly drawing, top", "assembly drawing, top (b.gbr)"]);
  });
});

// How many pixels of the canvas are coloured between two points of the board.
const coloured = (browser, from, to) => browser.ask(`(() => {
  const { view } = camplot, [a, b] = [view.placeOf(${from}), view.placeOf(${to})], context = view.canvas.getContext("2d");
  const [x, y] = [Math.round(a.x), Math.round(b.y)], width = Math.max(1, Math.round(b.x - a.x)), height = Math.max(1, Math.round(a.y - b.y));
  const { data } = context.getImageData(x, y, width, height);
  let count = 0;
  for (let at = 0; at < data.length; at += 4) if (data[at] > 120 && data[at] > data[at + 1] + 40) count++;
  return count / (width * height);
})()`);

suite("outline", () => {
  test("shows items by their edges, by its button and by Shift L, and is there when the page is opened again", async () => {
    const browser = await open();
    await give(browser, [{ name: "pads.gtl", bytes: gerber("X0Y0D03*", "D11*", "X5000000Y0D03*") }]);
    await settle(browser);
    const middle = () => coloured(browser, "4500000, -200000", "5500000, 200000"), edge = () => coloured(browser, "3950000, -450000", "4050000, 450000");
    assert.ok(await middle() > 0.99 && await edge() > 0.3);
    await press(browser, "[data-act=edges]");
    await settle(browser);
    assert.equal(await browser.ask("document.querySelector('[data-act=edges]').getAttribute('aria-pressed')"), "true");
    assert.equal(await middle(), 0);
    const seen = await edge();
    assert.ok(seen > 0 && seen < 0.5, `${seen}`);
    await rest(browser);
    await browser.reload();
    await rest(browser);
    await settle(browser);
    assert.equal(await middle(), 0);
    await stroke(browser, "L", SHIFT);
    await settle(browser);
    assert.ok(await middle() > 0.99);
    assert.deepEqual(browser.complaints(), []);
  });

  test("of a board", async () => {
    const browser = await openPage({ width: 1440, height: 900 });
    await give(browser, kicad());
    await stroke(browser, "L", SHIFT);
    await settle(browser);
    await screen(browser, "outline");
    assert.deepEqual(browser.complaints(), []);
  });
});
