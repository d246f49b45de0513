// The page in a headless browser: comparing any two, pictures, choices of conversions, arcs in regions, boards inside.

import assert from "node:assert/strict";
import { readFileSync, writeFileSync } from "node:fs";
import { execFileSync } from "node:child_process";
import { join } from "node:path";
import { EXAMPLES, REPOSITORY, SHIFT, builtPage, clickAt, gerber, give, last, lines, openPage, picked, program, room, run, savedFile,
  settle, text, withPads, written } from "./support.js";
import { pbm } from "../../tools/tests/pictures.js";
import { suite, test } from "../../tools/tests/harness.js";
import { withContents } from "../building/contents.js";

const bytesOf = (given) => Buffer.from(given);

// Compares two by what they are called in the choice for them.
async function compare(browser, first, second) {
  await browser.ask(`camplot.compareChosen(["first", "second"].map((_, at) => [...document.getElementById("first").options]
    .find((option) => option.textContent === ${JSON.stringify([first, second])}[at]).value))`);
  await browser.wait("camplot.state.comparison !== null");
  return text(browser, "compared-counts");
}

suite("pictures", () => {
  test("a plot is opened beside the layers, and compared with its layer", async () => {
    const browser = await withPads();
    await browser.ask("camplot.plot([camplot.state.layers[0]], 10000, 'pbm')");
    const { name, bytes } = await savedFile(browser);
    assert.equal(name, "top.pbm");
    await give(browser, [{ name: "plotted.pbm", bytes }]);
    assert.match(await text(browser, "opened"), /plotted\.pbm/);
    assert.match(await text(browser, "told"), /^1 picture opened\.$/);
    assert.match(await compare(browser, "top copper", "plotted.pbm"), /[\d,]{4,} pixels in both0 pixels.*the same, bit for bit/);
    assert.equal(await browser.ask("document.getElementById('compared-where').hidden"), true);
    await run(browser, "move top 0 1000000 0");
    await browser.wait("camplot.state.comparison === null");
    const counts = /both([\d,]+) pixels in the first alone([\d,]+) pixels in the second alone$/
      .exec(await compare(browser, "top copper", "plotted.pbm"));
    assert.equal(counts[1], counts[2]);
    const before = await browser.ask("camplot.view.pitch");
    await browser.ask("document.getElementById('compared-where').click()");
    assert.ok(await browser.ask("camplot.view.pitch") < before);
    await settle(browser);
    assert.ok(await browser.ask("camplot.view.pictures.get('compared first').bitmap !== null"));
    await browser.key("Escape");
    await browser.wait("camplot.state.comparison === null");
    assert.deepEqual(browser.complaints(), []);
  });

  test("one of no window that is known is asked for its place", async () => {
    const browser = await withPads();
    const opening = give(browser, [{ name: "a.pbm", bytes: pbm(40, 30, (column) => column === 39) }]);
    await browser.wait("document.getElementById('question').open");
    await browser.ask(`[...document.querySelectorAll("#question-body input")].forEach((input, at) => {
      input.value = ["1", "-2", "0.1"][at]; })`);
    await browser.ask("document.querySelector('#question-choices button').click()");
    await opening;
    await settle(browser);
    assert.deepEqual(await browser.ask("camplot.state.opened.map(({ window }) => window)"), ["window 1000000 -2000000 100000 40 30"]);
    const [black, beside] = await browser.ask(`[4950000, 4850000].map((x) => {
      const { x: column, y: row } = camplot.view.placeOf(x, 0); return camplot.view.blackAt(column, row).join(); })`);
    assert.deepEqual([black, beside], ["a.pbm", ""]);
    await browser.ask("document.querySelector('#opened button').click()");
    assert.equal(await browser.ask("camplot.state.opened.length"), 0);
  });

  test("two layers are compared, and a file that is no picture is told", async () => {
    const browser = await openPage();
    await give(browser, [{ name: "a.gtl", bytes: gerber("X0Y0D03*", "X4000000Y0D03*") },
      { name: "b.gbl", bytes: gerber("X0Y0D03*") }, { name: "c.pbm", bytes: bytesOf("P4\n40 30\nx") }]);
    assert.match(await text(browser, "told"), /c\.pbm: it is cut short/);
    await settle(browser);
    assert.match(await compare(browser, "top copper", "bottom copper"), /[1-9][\d,]* pixels in the first alone0 pixels/);
    assert.equal(await text(browser, "compared-title"), "top copper and bottom copper");
  });
});

suite("conversions by choice", () => {
  const choose = (browser, values) => browser.ask(`(() => {
    document.querySelector("#refused button").click();
    return new Promise((done) => setTimeout(() => {
      const inputs = [...document.querySelectorAll("#choices input, #choices select")];
      ${JSON.stringify(Object.entries(values))}.forEach(([at, value]) => {
        inputs[at].value = value;
        inputs[at].dispatchEvent(new Event("input", { bubbles: true }));
      });
      const look = () => document.querySelector("#question-body .working") ? setTimeout(look, 20)
        : done(document.getElementById("question-body").textContent);
      setTimeout(look, 100);
    }, 100));
  })()`);

  test("a drill file without a unit", async () => {
    const browser = await openPage();
    const { opened } = await give(browser, [{ name: "a.drl",
      bytes: bytesOf("M48\nT01C0.800\n%\nT01\nX010000Y020000\nM30\n") }]);
    assert.deepEqual(opened, []);
    assert.match(await text(browser, "refused"), /cannot be converted as it stands: .*the unit is not given/);
    // Unit, digits, zeros, and behind the report the diameters.
    assert.match(await choose(browser, { 0: "mm", 1: "3:3", 2: "leading", 4: "1=0.9mm" }), /digits: 3:3.*1 read, 1 written/);
    await browser.ask("document.querySelector('#question-choices button').click()");
    await browser.wait("camplot.state.layers.length === 1");
    assert.match(await written(browser, "holes"), /T1C0\.900000[\s\S]*X10\.000000Y20\.000000/);
    assert.equal(await browser.ask("document.querySelectorAll('#refused button').length"), 0);
  });

  test("a file that can be read in two ways, by a button for each", async () => {
    const browser = await openPage(), folder = join(REPOSITORY, "tools", "cases", "to_gerber", "arcs_of_one_quadrant");
    await give(browser, [{ name: "old.gtl", bytes: readFileSync(join(folder, "file.gbr")) }]);
    assert.match(await text(browser, "refused"), /cannot be converted as it stands/);
    await browser.ask("document.querySelector('#refused button').click()");
    await browser.wait("document.querySelectorAll('#ways button').length === 2");
    assert.deepEqual(await browser.ask("[...document.querySelectorAll('#ways button')].map((button) => button.textContent)"),
      ["arcs: of one quadrant, without signs", "arcs: of any angle, with signs"]);
    assert.ok(await browser.ask("document.querySelector('#question-choices button').disabled"));
    await browser.ask("document.querySelectorAll('#ways button')[0].click()");
    await browser.wait("!document.querySelector('#question-choices button').disabled");
    await browser.ask("document.querySelector('#question-choices button').click()");
    await browser.wait("camplot.state.layers.length === 1");
    assert.equal((await browser.ask("Object.values(camplot.state.files).length")), 2);
    assert.deepEqual(browser.complaints(), []);
  });

  test("a Gerber file, exactly or to the nearest nm", async () => {
    const browser = await openPage();
    const opening = give(browser, [{ name: "old.gtl", bytes: bytesOf("%FSLAX46Y46*%\n%MOMM*%\n%ADD10P,1.000000X8X22.5*%\nD10*\n"
      + "X0Y0D03*\nM02*\n") }]);
    await browser.wait("document.getElementById('question').open");
    assert.match(await text(browser, "question-body"), /rounded: 8 corners/);
    await browser.ask("document.querySelector('#choices input').click()");
    await browser.wait("document.getElementById('question-body').textContent.includes('So it cannot be converted')");
    assert.equal(await browser.ask("document.querySelector('#question-choices button').disabled"), true);
    await browser.ask("document.querySelector('#choices input').click()");
    await browser.wait("!document.querySelector('#question-choices button').disabled");
    await browser.ask("document.querySelector('#question-choices button').click()");
    assert.deepEqual((await opening).opened, ["top"]);
  });
});

suite("regions", () => {
  test("a side becomes an arc by its centre", async () => {
    const browser = await withPads();
    await browser.ask("camplot.view.fit({ left: -2000000, low: -6000000, right: 8000000, high: 3000000 })");
    await settle(browser);
    await browser.key("4");
    await clickAt(browser, 0, -4000000);
    await clickAt(browser, 3000000, -4000000);
    await clickAt(browser, 3000000, -3000000, SHIFT);
    await clickAt(browser, 3000000, -1000000);
    await browser.key("Enter");
    await browser.wait("camplot.state.layers[0].items === 5");
    assert.match(last(await lines(browser), 1)[0], /^insert top 4 region dark (-?\d+ ){2}l (-?\d+ ){2}ccw (-?\d+ ){4}l .* -> ok$/);
    assert.match((await picked(browser))[0], /^top 4 region dark .* ccw /);
  });
});

suite("a board inside", () => {
  test("its lines are run, and its pictures lie beside", async () => {
    const path = join(room(), "board.html"), pads = gerber("X0Y0D03*", "X4000000Y0D03*");
    const window = "window -1000000 -1000000 100000 60 20";
    writeFileSync(path, withContents(readFileSync(builtPage(), "utf8"), {
      title: "pads", files: [{ name: "pads.gtl", bytes: pads }], window,
      lines: [{ line: "move top 0 500000 0" }, { line: "load more gerber files/pads.gtl", bytes: pads }, { line: "delete more 0" }],
      pictures: [{ name: "moved.pbm (line 2)", layer: "top", window, bytes: pbm(60, 20, (column) => column < 3) }],
    }));
    const browser = await openPage({ page: path });
    await settle(browser);
    assert.deepEqual((await lines(browser)).map((line) => line.split(" -> ")[0]), ["load top gerber files/pads.gtl",
      "move top 0 500000 0", "load more gerber files/2-pads.gtl", "delete more 0"]);
    assert.equal(await browser.ask("camplot.steps.done.length"), 1);
    assert.deepEqual(await browser.ask("['first', 'second'].map((id) => document.getElementById(id).selectedOptions[0].textContent)"),
      ["top copper", "moved.pbm (line 2)"]);
    await browser.ask("document.getElementById('compare-two').click()");
    await browser.wait("camplot.state.comparison !== null");
    assert.match(await text(browser, "compared-counts"), /60 pixels in the second alone/);
    assert.deepEqual(browser.complaints(), []);
  });

  test("tools/board leaves it, and it is the board of its script", async () => {
    const path = program(), folder = room(), page = builtPage(), kicad = join(EXAMPLES, "kicad");
    execFileSync(process.execPath, [join(REPOSITORY, "tools", "board"), kicad, "--edits", join(kicad, "move_a_pad"), "--out",
      join(folder, "board"), "--camplot", path, "--page", page]);
    const browser = await openPage({ page: join(folder, "board", "index.html") });
    await settle(browser);
    assert.equal(await browser.ask("camplot.state.layers.length"), 8);
    assert.equal(await written(browser, "top"), readFileSync(join(folder, "board", "texts", "top.gbr"), "utf8"));
    assert.equal(await browser.ask("camplot.steps.undone.length"), 1);
    assert.match(await compare(browser, "top copper", await browser.ask("camplot.state.opened.at(-1).label")),
      /the same, bit for bit/);
    assert.match(await compare(browser, "top copper", await browser.ask("camplot.state.opened[0].label")),
      /[1-9][\d,]* pixels in the first alone[1-9]/);
    assert.deepEqual(browser.complaints(), []);
  });
});
