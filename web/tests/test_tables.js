// The table of drill tools and that of apertures: sizes, counts and shapes, and all items of one lit and picked.

import assert from "node:assert/strict";
import { gerber, give, kicad, lines, openPage, picked, run, settle, text } from "./support.js";
import { idle } from "./looking.js";
import { press } from "./hands.js";
import { platingOf } from "../machine/plating.js";
import { suite, test } from "../../tools/tests/harness.js";

const drill = (...body) => Buffer.from(["M48", "METRIC", ...body, "M30", ""].join("\n"));

const cells = (browser, panel) => browser.ask(`[...document.querySelectorAll("#${panel} tbody tr")].map((row) =>
  [...row.cells].map((cell) => cell.textContent))`);

// Unfolds a table by its heading, and waits until it is counted.
async function unfold(browser, id) {
  await press(browser, `#${id} summary`);
  await browser.wait(`document.querySelector("#${id} tbody tr") !== null`, 60);
  await idle(browser);
}

suite("the drill table", () => {
  test("tools with diameters in the unit, hits and routs; a row lights its hits, and picks them", async () => {
    const browser = await openPage();
    const holes = drill("T1C0.800000", "T2C1.000000", "%", "G05", "T1", "X0.0Y0.0", "X2.0Y0.0", "T2", "X4.0Y0.0");
    await give(browser, [{ name: "plated.drl", bytes: holes }, { name: "a.gtl", bytes: gerber("X0Y0D03*") }]);
    await settle(browser);
    await unfold(browser, "drills-panel");
    const [name] = await browser.ask("camplot.state.layers.filter(({ kind }) => kind === 'drill').map(({ name }) => name)");
    assert.deepEqual(await cells(browser, "drills"), [["T1", "0.800", "2", "0", "yes", "pick"], ["T2", "1.000", "1", "0", "yes", "pick"]]);
    await press(browser, "#drills tbody tr button");
    await idle(browser);
    assert.deepEqual(await browser.ask("camplot.state.tables.lit.items.map(({ words }) => words)"), ["hit 1 0 0", "hit 1 2000000 0"]);
    assert.equal(await browser.ask("document.querySelector('#drills tbody tr button').getAttribute('aria-pressed')"), "true");
    // The board is dimmed, and the two hits are seen.
    await browser.ask("camplot.view.fit({ left: -1000000, low: -2000000, right: 5000000, high: 2000000 })");
    await settle(browser);
    const isLit = (x) => browser.ask(`(() => { const { view, marks } = camplot, at = view.placeOf(${x}, 0), ink = marks.colour("--ink-new").trim();
      const parts = [1, 3, 5].map((part) => parseInt(ink.slice(part, part + 2), 16));
      const { data } = view.context.getImageData(Math.round(at.x) - 2, Math.round(at.y), 5, 1);
      return [0, 4, 8, 12, 16].some((at) => parts.every((part, k) => Math.abs(data[at + k] - part) < 60)); })()`);
    assert.deepEqual([await isLit(-400000), await isLit(2400000), await isLit(4500000)], [true, true, false]);
    await press(browser, "#drills tbody tr .only");
    await idle(browser);
    assert.deepEqual(await picked(browser), [`${name} 0 hit 1 0 0`, `${name} 1 hit 1 2000000 0`]);
    // An edit is counted, and what is lit follows it.
    await browser.key("Delete");
    await idle(browser);
    assert.deepEqual((await cells(browser, "drills")).map((row) => row[2]), ["0", "1"]);
    assert.deepEqual(await browser.ask("camplot.state.tables.lit.items.length"), 0);
    await browser.key("Escape");
    assert.equal(await browser.ask("camplot.state.tables.lit"), null);
    await browser.key("u");
    await browser.key("u");
    assert.deepEqual((await cells(browser, "drills")).map((row) => row[1]), ["31.49606", "39.37008"]);
    assert.deepEqual((await lines(browser)).slice(2).map((line) => line.split(" -> ")[0]),
      ["begin", `delete ${name} 1`, `delete ${name} 0`, "end"]);
    assert.deepEqual(browser.complaints(), []);
  });

  test("whether holes are plated, as the file says of all or of a tool, or as the layer is called", () => {
    const of = (name, ...head) => platingOf({ told: [{ line: `load ${name} drill files/a`, reply: "ok 1", file: "f" }],
      files: { f: { bytes: drill(...head) } } }, name);
    const tools = (plating) => [1, 2, 3].map((number) => plating.of(number));
    assert.deepEqual(tools(of("holes", "; #@! TF.FileFunction,Plated,1,2,PTH", "T1C0.8", "T2C1.0")), ["yes", "yes", "yes"]);
    assert.deepEqual(tools(of("plated", "; #@! TF.FileFunction,NonPlated,1,2,NPTH", "T1C0.8")), ["no", "no", "no"]);
    assert.deepEqual(tools(of("holes", "; #@! TF.FileFunction,MixedPlating,1,2", "; #@! TA.AperFunction,Plated,PTH,ViaDrill", "T1C0.8",
      "; #@! TA.AperFunction,NonPlated,NPTH,ComponentDrill", "T2C1.0", "; #@! TD", "T3C2.0")), ["yes", "no", "?"]);
    assert.deepEqual([of("nonplated", "T1C1").of(1), of("plated-2", "T1C1").of(1), of("holes", "T1C1").of(1)], ["no", "yes", "?"]);
  });
});

suite("the apertures", () => {
  test("with shapes, sizes and counts; all items of one are lit and picked, and the panel says what is not edited here", async () => {
    const browser = await openPage();
    await give(browser, [{ name: "a.gtl", bytes: gerber("X0Y0D03*", "X2000000Y0D03*", "X0Y3000000D02*", "X4000000Y3000000D01*", "D11*", "X6000000Y0D03*") }]);
    await settle(browser);
    await unfold(browser, "apertures-panel");
    assert.deepEqual(await cells(browser, "apertures"), [["D10", "", "circle 1 mm", "2 flashes, 1 draw", "pick"],
      ["D11", "", "rectangle 2 by 1 mm", "1 flash", "pick"]]);
    assert.match(await text(browser, "apertures-panel"), /New apertures, and other sizes or shapes, are not made here/);
    await browser.ask("camplot.idle()");
    // The shape has the layer's colour in its middle, and none in its corner; the rectangle is wider than it is high.
    const inked = (row, x, y) => browser.ask(`document.querySelectorAll("#apertures canvas")[${row}].getContext("2d").getImageData(${x}, ${y}, 1, 1).data[3]`);
    assert.deepEqual([await inked(0, 18, 18), await inked(0, 1, 1), await inked(1, 4, 18), await inked(1, 18, 4)], [255, 0, 255, 0]);
    await press(browser, "#apertures tbody tr button");
    await idle(browser);
    assert.equal(await browser.ask("camplot.state.tables.lit.items.length"), 3);
    await press(browser, "#apertures tbody tr:nth-child(2) .only");
    await idle(browser);
    assert.deepEqual(await picked(browser), ["top 3 flash 11 6000000 0 r0 dark"]);
    await run(browser, "move top 3 1000000 0");
    await idle(browser);
    assert.deepEqual((await cells(browser, "apertures")).map((row) => row[3]), ["2 flashes, 1 draw", "1 flash"]);
    assert.deepEqual(browser.complaints(), []);
  });

  test("of macros, of blocks that are made of one another, and of one that paints nothing", async () => {
    const browser = await openPage();
    // A block of a clear disc on a dark rectangle, and one of two of these; a macro of two bars, and one of exposure 0.
    const file = ["%FSLAX46Y46*%", "%MOMM*%", "%TF.Part,Single*%", "%AMBARS*", "21,1,2.000000,0.400000,0,0,0*", "21,1,0.400000,2.000000,0,0,0*", "%",
      "%AMNONE*", "1,0,1.000000,0,0*", "%", "%ADD10R,2.000000X2.000000*%", "%ADD11C,1.000000*%", "%ADD12BARS*%", "%ADD13NONE*%", "%ABD14*%", "D10*",
      "X0Y0D03*", "%LPC*%", "D11*", "X0Y0D03*", "%LPD*%", "%AB*%", "%ABD15*%", "D14*", "X0Y0D03*", "%LR90*%", "X3000000Y0D03*", "%AB*%", "%LR0*%", "D15*",
      "X0Y0D03*", "D12*", "X9000000Y0D03*", "M02*"];
    await give(browser, [{ name: "b.gtl", bytes: Buffer.from(file.map((line) => `${line}\n`).join("")) }]);
    await settle(browser);
    await unfold(browser, "apertures-panel");
    await idle(browser);
    const inked = (row, points) => browser.ask(`${JSON.stringify(points)}.map(([x, y]) => document.querySelectorAll("#apertures canvas")[${row}]
      .getContext("2d").getImageData(x, y, 1, 1).data[3] > 0)`);
    assert.deepEqual((await cells(browser, "apertures")).map((row) => [row[0], row[2], row[3]]), [["D10", "rectangle 2 by 2 mm", "unused"],
      ["D11", "circle 1 mm", "unused"], ["D12", "a shape of primitives", "1 flash"], ["D13", "a shape of primitives", "unused"], ["D14", "block", "unused"],
      ["D15", "block", "1 flash"]]);
    assert.deepEqual(await inked(2, [[18, 18], [3, 18], [18, 3], [5, 5]]), [true, true, true, false]);
    assert.deepEqual(await inked(3, [[18, 18]]), [false]);
    assert.deepEqual(await inked(4, [[4, 18], [18, 18], [30, 30]]), [true, false, true]);
    // Two rectangles with their holes, 5 mm wide in all.
    assert.deepEqual(await inked(5, [[3, 18], [9, 18], [18, 18], [27, 18], [33, 18], [18, 3]]), [true, false, false, false, true, false]);
    // How far the block's right edge is from the macro: by pixels.
    await browser.ask("camplot.pick([{ name: 'top', place: 0 }, { name: 'top', place: 1 }])");
    await press(browser, "#picked [data-row=gap] button");
    await idle(browser);
    const [least, most] = /gap from ([\d.]+) to ([\d.]+) mm, by pixels/.exec(await text(browser, "picked")).slice(1).map(Number);
    assert.ok(least <= 4 && most >= 4 && most - least < 0.02, `${least} ${most}`);
    assert.deepEqual(browser.complaints(), []);
  });

  test("of a board: macros too, another layer when it is chosen, and none of a drill layer", async () => {
    const browser = await openPage();
    await give(browser, kicad());
    await browser.ask("camplot.makeActive('top')");
    await settle(browser);
    await unfold(browser, "apertures-panel");
    const counted = await cells(browser, "apertures");
    assert.equal(counted.length, await browser.ask("camplot.state.layers.find(({ name }) => name === 'top').entries"));
    const all = counted.flatMap((row) => row[3].match(/\d[\d,]*/g) ?? []).reduce((sum, count) => sum + Number(count.replace(",", "")), 0);
    const regions = Number(/without an aperture: (\d+)/.exec(await text(browser, "apertures"))?.[1] ?? 0);
    assert.equal(all + regions, await browser.ask("camplot.state.layers.find(({ name }) => name === 'top').items"));
    const blank = await browser.ask(`[...document.querySelectorAll("#apertures canvas")].filter((canvas) =>
      !canvas.getContext("2d").getImageData(0, 0, 36, 36).data.some((value) => value > 0)).length`);
    assert.equal(blank, 0);
    await browser.ask("camplot.makeActive(camplot.state.layers.find(({ kind }) => kind === 'drill').name)");
    await idle(browser);
    assert.match(await text(browser, "apertures"), /a drill layer has tools/);
    assert.deepEqual(browser.complaints(), []);
  });
});
