// The board's view: the side as it will be made, next to a plain program; its colours, what lacks, and the layers again.

import assert from "node:assert/strict";
import { SHIFT, gerber, give, kicad, openPage, run, settle, text } from "./support.js";
import { comparePixels } from "./board_pixels.js";
import { pileSeen } from "../machine/index.js";
import { press } from "./hands.js";
import { reload } from "./looking.js";
import { suite, test } from "../../tools/tests/harness.js";

const BOX = { left: 99_900_000, low: -100_100_000, right: 130_100_000, high: -79_900_000 };
// A window in which the board's canvas is small enough for the plain program.
const SMALL = { width: 800, height: 640 };

async function withFiles(files) {
  const browser = await openPage(SMALL);
  await give(browser, files);
  await settle(browser);
  return browser;
}

const show = async (browser, key = "b", modifiers = 0) => {
  await browser.key(key, modifiers);
  await settle(browser);
};

const lacks = (browser) => text(browser, "made-lacks");
const colourAt = (browser, x, y) => browser.ask(`(() => { const { view } = camplot, at = view.placeOf(${x}, ${y});
  return [...view.context.getImageData(Math.floor(at.x), Math.floor(at.y), 1, 1).data.subarray(0, 3)]; })()`);
const sum = (browser) => browser.ask(`(async () => { const { width, height } = camplot.view.canvas;
  const { data } = camplot.view.context.getImageData(0, 0, width, height);
  return [...new Uint8Array(await crypto.subtle.digest("SHA-256", data))].join(); })()`);

suite("the board's view", () => {
  test("B shows both sides as they will be made, each pixel, and the layers again", async () => {
    const files = kicad(), browser = await withFiles(files), before = await sum(browser);
    await show(browser);
    const top = await comparePixels(browser, files, BOX, { side: "top" });
    for (const name of ["nothing", "mask", "mask over copper", "copper", "silkscreen", "several"]) assert.ok(top.get(name) > 100, `${name}: ${top.get(name)}`);
    assert.deepEqual([await lacks(browser), await text(browser, "made-side")], ["", "the top"]);
    await show(browser, "B", SHIFT);
    const bottom = await comparePixels(browser, files, BOX, { side: "bottom" });
    assert.ok(bottom.get("mask over copper") > 3 * bottom.get("mask"), `${bottom.get("mask")}`);
    assert.deepEqual([await lacks(browser), await text(browser, "made-side")], ["no silkscreen.", "the bottom, seen from below"]);
    await show(browser, "B", SHIFT);
    await show(browser);
    assert.equal(await sum(browser), before);
    assert.deepEqual(browser.complaints(), []);
  });

  test("a part of it, whose window has not the whole outline, from both sides, and after an edit of the outline", async () => {
    const files = kicad(), browser = await withFiles(files);
    await show(browser);
    // (the corner with the large hole, and the slot at the right)
    for (const [x, y] of [[102_000_000, -82_000_000], [128_500_000, -88_000_000]]) {
      await browser.ask(`camplot.view.hold({ x: ${x}, y: ${y} }, camplot.view.canvas.width / 2, camplot.view.canvas.height / 2, 26000)`);
      await settle(browser);
      const counts = await comparePixels(browser, files, BOX, { side: "top" });
      assert.ok(counts.get("nothing") > 1000 && counts.get("mask") > 1000);
    }
    await show(browser, "B", SHIFT);
    await comparePixels(browser, files, BOX, { side: "bottom" });
    assert.deepEqual(browser.complaints(), []);
  });

  test("zoomed in to 4 nm a pixel the edge is where the outline has it", async () => {
    const browser = await withFiles(kicad());
    await show(browser);
    await browser.ask("camplot.view.hold({ x: 100000000, y: -90000000 }, camplot.view.canvas.width / 2, camplot.view.canvas.height / 2, 4)");
    await settle(browser);
    assert.deepEqual(await colourAt(browser, 100_000_020, -90_000_000), [0x0f, 0x55, 0x30]);
    assert.notDeepEqual(await colourAt(browser, 99_999_980, -90_000_000), [0x0f, 0x55, 0x30]);
    assert.equal(await browser.ask("camplot.view.pitch"), 4);
  });

  test("without masks copper is bare, which is said; other colours are chosen, and kept", async () => {
    const files = kicad().filter(({ name }) => !name.includes("Mask")), browser = await withFiles(files);
    await show(browser);
    assert.equal(await lacks(browser), "no mask: bare copper is shown.");
    await comparePixels(browser, files, BOX, { side: "top" });
    await give(browser, kicad().filter(({ name }) => name.includes("F_Mask")));
    await settle(browser);
    assert.equal(await lacks(browser), "");
    for (const [id, value] of [["made-mask", "blue"], ["made-finish", "gold"]]) {
      await browser.ask(`(() => { const choice = document.getElementById("${id}"); choice.value = "${value}"; choice.onchange(); })()`);
    }
    await settle(browser);
    const all = [...files, ...kicad().filter(({ name }) => name.includes("F_Mask"))];
    await comparePixels(browser, all, BOX, { side: "top", mask: "blue", finish: "gold" });
    await browser.ask("camplot.idle()");
    await reload(browser);
    await settle(browser);
    await comparePixels(browser, all, BOX, { side: "top", mask: "blue", finish: "gold" });
    assert.equal(await browser.ask("document.getElementById('made-mask').value"), "blue");
    await press(browser, "[data-act=board]");
    assert.equal(await browser.ask("camplot.state.made.isShown"), false);
    assert.deepEqual(browser.complaints(), []);
  });

  test("no outline, an open one, and an edit that opens it are said", async () => {
    const files = kicad().filter(({ name }) => !name.includes("Edge")), browser = await withFiles(files);
    await show(browser);
    assert.equal(await lacks(browser), "no outline: the board is the box of all layers.");
    await comparePixels(browser, files, BOX, { side: "top" });
    await give(browser, kicad().filter(({ name }) => name.includes("Edge")));
    await settle(browser);
    assert.equal(await lacks(browser), "");
    assert.match((await run(browser, "delete outline 0")).join(), /^ok/);
    await settle(browser);
    assert.equal(await lacks(browser), "the outline is not closed: the board is the box around it.");
    await show(browser, "z", 2);
    await browser.wait("document.getElementById('made-lacks').textContent === ''");
    assert.deepEqual(browser.complaints(), []);
  });

  test("a drill file with holes of both kinds has walls in those with plating alone", async () => {
    const tool = (number, said, size) => `; #@! TA.AperFunction,${said}\nT${number}C${size}\n`;
    const drill = Buffer.from(`M48\nMETRIC\n${tool(1, "Plated,PTH,ComponentDrill", "1.000")}${tool(2, "NonPlated,NPTH,ComponentDrill", "2.000")}`
      + "%\nG05\nT1\nX0.0Y0.0\nT2\nX5.0Y0.0\nM30\n");
    const browser = await withFiles([{ name: "board.drl", bytes: drill }, { name: "board.gtl", bytes: gerber("X-4000000Y0D03*", "X9000000Y3000000D03*") }]);
    await show(browser);
    const near = async (x, dx) => {
      await browser.ask(`camplot.view.hold({ x: ${x}, y: 0 }, camplot.view.canvas.width / 2, camplot.view.canvas.height / 2, 1000)`);
      await settle(browser);
      return colourAt(browser, x + dx, 0);
    };
    const nothing = await near(0, 0);
    assert.deepEqual(await near(500_000, -8000), [0x8e, 0x93, 0x99]);
    assert.deepEqual(await near(500_000, 8000), [0x98, 0x8b, 0x5d]);
    assert.deepEqual(await near(6_000_000, -8000), nothing);
    assert.deepEqual(await near(6_000_000, 8000), [0x98, 0x8b, 0x5d]);
    assert.deepEqual(browser.complaints(), []);
  });

  test("an outline with an open line is known by its picture, with coarser pixels where it takes too many, which is said", async () => {
    const box = ["X0Y0D02*", "X20000000Y0D01*", "X20000000Y20000000D01*", "X0Y20000000D01*", "X0Y0D01*", "X5000000Y5000000D02*", "X8000000Y8000000D01*"];
    const browser = await withFiles([{ name: "board.gko", bytes: gerber(...box) }, { name: "board.gtl", bytes: gerber("X15000000Y10000000D03*") }]);
    await show(browser);
    // (the pen of 1 mm is of the board)
    for (const [pitch, told] of [[8000, /^no mask/], [1000, /^the outline has open lines: its edge has pixels of [\d,]+ nm; no mask/]]) {
      await browser.ask(`camplot.view.hold({ x: -500000, y: 10000000 }, camplot.view.canvas.width / 2, camplot.view.canvas.height / 2, ${pitch})`);
      await settle(browser);
      assert.match(await lacks(browser), told);
      assert.deepEqual(await colourAt(browser, -500_000 + 20 * pitch, 10_000_000), [0x98, 0x8b, 0x5d]);
      assert.notDeepEqual(await colourAt(browser, -500_000 - 20 * pitch, 10_000_000), [0x98, 0x8b, 0x5d]);
    }
    assert.deepEqual(browser.complaints(), []);
  });

  test("what is no layer of a board is said", async () => {
    const browser = await openPage(SMALL);
    await give(browser, [{ name: "notes.gbr", bytes: Buffer.from(`%TF.FileFunction,AssemblyDrawing,Top*%\n${gerber("X0Y0D03*")}`) }]);
    await settle(browser);
    await show(browser);
    assert.match(await lacks(browser), /^no layer of copper/);
    assert.deepEqual(browser.complaints(), []);
  });
});

suite("the pile from below", () => {
  test("is turned over, but for outline, holes and drawings", () => {
    const pile = ["bottom-silk", "bottom", "in2", "in1", "top", "top-mask", "drawing", "outline", "plated"].map((shows) => ({ name: shows, shows }));
    assert.equal(pileSeen(pile, false), pile);
    assert.deepEqual(pileSeen(pile, true).map(({ shows }) => shows),
      ["top-mask", "top", "in1", "in2", "bottom", "bottom-silk", "drawing", "outline", "plated"]);
    assert.deepEqual(pileSeen([{ name: "a picture" }], true), [{ name: "a picture" }]);
  });

  test("the layers' view has the bottom's copper over the top's, and a click picks it first", async () => {
    const browser = await openPage(SMALL), pad = (name) => ({ name, bytes: gerber("X0Y0D03*") });
    await give(browser, [pad("board.gtl"), pad("board.gbl")]);
    await browser.ask("for (const name of ['top', 'bottom']) camplot.machine.send({ kind: 'layer', name, changes: { opacity: 1 } })");
    await settle(browser);
    const colour = () => colourAt(browser, 0, 0);
    const picked = async () => {
      await browser.ask("camplot.machine.send({ kind: 'escape' })");
      await browser.ask("camplot.pickAt(0, 0, 10)");
      return browser.ask("camplot.state.picked.map(({ name }) => name)");
    };
    const above = await colour();
    assert.deepEqual(await picked(), ["top"]);
    await browser.key("Escape");
    await show(browser, "B", SHIFT);
    assert.deepEqual(await picked(), ["bottom"]);
    await browser.key("Escape");
    await settle(browser);
    assert.notDeepEqual(await colour(), above);
    assert.deepEqual(browser.complaints(), []);
  });
});
