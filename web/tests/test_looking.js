// What people look for on a board: units, a point, and a link to a place.

import assert from "node:assert/strict";
import { PAD, builtPage, clickAt, give, kicad, lines, onPage, openPage, room, settle, text, withBoard,
  withPads } from "./support.js";
import { Tab, openBrowser } from "./tab.js";
import { UNITS, areaText, lengthIn, lengthText, pointIn, wordsIn } from "../board/units.js";
import { assertCentre, idle, lastLine, reload, write } from "./looking.js";
import { linkOf, placeIn } from "../page/going.js";
import { readFileSync, writeFileSync } from "node:fs";
import { suite, test } from "../../tools/tests/harness.js";
import { chances } from "../../tools/tests/pictures.js";
import { join } from "node:path";
import { pathToFileURL } from "node:url";
import { press } from "./hands.js";
import { ticks } from "../page/rulers.js";
import { withContents } from "../building/contents.js";

suite("units", () => {
  test("each nm is read back from its text", () => {
    const chance = chances(31);
    for (let turn = 0; turn < 3000; turn++) {
      const nm = Math.round((chance() - 0.5) * 10 ** (1 + Math.floor(chance() * 9)) * 2) + 0;
      for (const unit of Object.keys(UNITS)) {
        assert.equal(lengthIn(lengthText(nm, unit), unit), nm, `${nm} ${unit}`);
        assert.equal(lengthIn(`${lengthText(nm, unit)}${unit}`, "mm"), nm);
      }
    }
  });

  test("exact lengths are short, and units of their own go before the setting", () => {
    assert.deepEqual([[25400000, "in"], [12700000, "in"], [508000, "mil"], [12700000, "mm"], [1, "in"], [-127, "mil"], [0, "mil"]]
      .map(([nm, unit]) => lengthText(nm, unit)), ["1.0000", "0.5000", "20.0", "12.700", "0.00000004", "-0.005", "0.0"]);
    assert.deepEqual(["12.7mm", "0.5in", "0.5 inch", "20mil", "1", "1 µm", "7 nm", "0,5"].map((typed) => lengthIn(typed, "in")),
      [12700000, 12700000, 12700000, 508000, 25400000, 1000, 7, 12700000]);
    for (const typed of ["", "mil", "1 ft", "--1", "1e3", "1 2", "NaN", "999999"]) assert.equal(lengthIn(typed, "in"), null, typed);
    assert.deepEqual(["rectangle 2.54 by 1.27 mm", "move a 0 by 1.27, -0.0254 mm", "diameter of tool 3 of a: 0.8 mm", "delete a 3",
      "set .A of b"].map((words) => wordsIn(words, "mil")), ["rectangle 100 by 50 mil", "move a 0 by 50, -1 mil",
      "diameter of tool 3 of a: 31.49606 mil", "delete a 3", "set .A of b"]);
    assert.deepEqual(["mm", "in", "mil"].map((unit) => areaText(645.16, unit)), ["645.160 mm²", "1.000000 in²", "1000000.0 mil²"]);
  });

  test("a unit that is none counts as mm, whatever its name, and a micrometre has either letter", () => {
    for (const unit of ["furlong", "constructor", "toString", "__proto__"]) {
      assert.deepEqual([lengthText(12700000, unit), lengthIn("12.7", unit)], ["12.700", 12700000], unit);
    }
    assert.deepEqual(["1 \u00b5m", "1 \u03bcm", "1 \u039cM"].map((typed) => lengthIn(typed, "in")), [1000, 1000, 1000]);
  });

  test("points", () => {
    assert.deepEqual(["1, 2", "1 2", "1;2", " 12.7mm,20mil ", "1, 2 mm", "-.5in 1.", "7 -8 nm"].map((typed) => pointIn(typed, "in")),
      [[25400000, 50800000], [25400000, 50800000], [25400000, 50800000], [12700000, 508000], [1000000, 2000000],
        [-12700000, 25400000], [7, -8]].map(([x, y]) => ({ x, y })));
    for (const typed of ["", "1", "1,", "1,2,3", "1,5 2,5", "a, b", "1 ft, 2", "1e3, 4", "Infinity, 0", "1001mm, 0", "0, -1001mm"]) {
      assert.equal(pointIn(typed, "mm"), null, typed);
    }
  });

  test("marks of rulers stand at round lengths of the unit", () => {
    assert.deepEqual(ticks(-26e6, 26e6, 20e6, "in").map(({ at, words }) => [Math.round(at), words]),
      [[-25400000, "-1"], [0, "0"], [25400000, "1"]]);
    assert.deepEqual(ticks(0, 1e4, 4000, "mil").map(({ at, words }) => [Math.round(at), words]), [[0, "0.0"], [5080, "0.2"]]);
    assert.equal(ticks(1e6, 2e6, 1e5, "mm").map(({ words }) => words).join(" "), "1.0 1.1 1.2 1.3 1.4 1.5 1.6 1.7 1.8 1.9 2.0");
  });

  test("one setting is that of the grid, the fields, the pointer and the questions, and is kept", async () => {
    const browser = await withPads();
    await clickAt(browser, 2000000, 0);
    await idle(browser);
    await browser.key("u");
    assert.equal(await browser.ask("document.getElementById('unit').selectedOptions[0].textContent"), "inch");
    assert.equal(await browser.ask("document.getElementById('grid').value"), "0.0003937");
    assert.match(await text(browser, "place"), /^\d+ -?\d+ nm {3}0\.07\d+, -?0\.00\d+ in$/);
    assert.match(await text(browser, "picked"), /0\.03937008 by 0\.03937008 in, from 0\.05905512, -0\.01968504/);
    assert.match(await text(browser, "active"), /10: circle 0\.03937008 in/);
    await write(browser, "#picked input[aria-label='to the right, in in']", "0.5");
    await write(browser, "#picked input[aria-label='up, in in']", "-20mil");
    await browser.key("Enter");
    await idle(browser);
    assert.equal(await lastLine(browser), "move top 1 12700000 -508000 -> ok");
    assert.match(await text(browser, "history"), /move top 1 by 0\.5, -0\.02 in/);
    await write(browser, "#grid", "50 mil");
    await browser.key("Enter");
    assert.equal(await browser.ask("camplot.state.grid"), 1270000);
    assert.equal(await browser.ask("document.getElementById('grid').value"), "0.0500");
    await press(browser, "[data-act=plot]");
    assert.match(await text(browser, "question-body"), /dots an inchin a pixel/);
    await browser.key("Escape");
    // By the choice itself: the letter of mil, then the one before.
    await browser.ask("document.getElementById('unit').focus()");
    await browser.key("ArrowDown");
    assert.equal(await browser.ask("camplot.state.unit"), "mil");
    assert.match(await text(browser, "history"), /move top 1 by 500, -20 mil/);
    await idle(browser);
    await reload(browser);
    assert.deepEqual(await browser.ask("[camplot.state.unit, ...['grid', 'unit'].map((id) => document.getElementById(id).value)]"),
      ["mil", "50.0", "mil"]);
    // The script has whole nm, whatever the unit is.
    assert.deepEqual((await lines(browser)).map((line) => line.split(" -> ")[0]).slice(1), ["move top 1 12700000 -508000"]);
    assert.deepEqual(browser.complaints(), []);
  });

  test("the tool measure and a drag tell lengths in it", async () => {
    const browser = await withPads();
    await browser.key("u");
    await browser.key("u");
    await browser.ask("camplot.view.fit({ left: -1000000, low: -3000000, right: 7000000, high: 3000000 })");
    await settle(browser);
    await browser.ask(`globalThis.told = []; const { fillText } = CanvasRenderingContext2D.prototype;
      CanvasRenderingContext2D.prototype.fillText = function(words, ...more) { told.push(words); fillText.call(this, words, ...more); };`);
    await browser.key("m");
    await browser.drag(await onPage(browser, 0, 0), await onPage(browser, 5080000, 0));
    await settle(browser);
    const [words] = await browser.ask("told.filter((words) => / dx /.test(words)).slice(-1)");
    const [, length] = /^([\d.]+) mil {3}dx \+[\d.]+ {2}dy [+-][\d.]+ {2}angle -?[\d.]+°$/.exec(words);
    assert.ok(Math.abs(Number(length) - 200) < 2 * await browser.ask("camplot.view.pitch") / 25400, words);
    assert.ok(await browser.ask("told.includes('mil') && told.includes('0') && told.includes('100')"));
    await browser.key("Escape");
    await clickAt(browser, 0, 0);
    await idle(browser);
    await write(browser, "#grid", "10");
    await browser.key("Enter");
    const [from, to] = [await onPage(browser, 0, 0), await onPage(browser, 1270000, 0)];
    await browser.mouse("mouseMoved", ...from);
    await browser.mouse("mousePressed", ...from, { button: "left", clickCount: 1 });
    await browser.mouse("mouseMoved", ...to, { button: "left", buttons: 1 });
    assert.equal(await text(browser, "told"), "by 50.0, 0.0 mil");
    await browser.mouse("mouseReleased", ...to, { button: "left", clickCount: 1 });
    await idle(browser);
    assert.equal(await lastLine(browser), "move top 0 1270000 0 -> ok");
  });
});

suite("going to a place", () => {
  test("a point that is typed is in the middle, with a mark that fades", async () => {
    const browser = await withBoard();
    await browser.key("g");
    await browser.wait("document.getElementById('question').open");
    const isAllowed = () => browser.ask("!document.querySelector('#question-choices button').disabled");
    assert.equal(await browser.ask("document.activeElement.getAttribute('aria-label')"), "x, y in mm");
    assert.equal(await isAllowed(), false);
    await browser.type("117.9375 and -85");
    await browser.key("Enter");
    assert.equal(await isAllowed(), false);
    assert.equal(await browser.ask("document.getElementById('question').open"), true);
    await browser.ask("document.activeElement.select()");
    await browser.type("117.9375, -85");
    assert.equal(await isAllowed(), true);
    await browser.key("Enter");
    await browser.wait("camplot.going.mark !== null");
    await assertCentre(browser, PAD);
    await browser.wait("camplot.going.mark === null", 60);
    await settle(browser);
    assert.equal(await browser.ask("document.getElementById('question').open"), false);
    // In another unit, by the buttons.
    await browser.key("u");
    await press(browser, "[data-act=go]");
    await browser.type("4.5in, -90mm");
    await press(browser, "#question-choices button");
    await browser.wait("camplot.going.mark !== null");
    await assertCentre(browser, [114300000, -90000000]);
    assert.equal((await lines(browser)).length, 8);
    assert.deepEqual(browser.complaints(), []);
  });

  test("links are read, and nonsense is none", () => {
    assert.deepEqual(placeIn("#12.7,-0.000001"), { x: 12700000, y: -1, zoom: null, isMirrored: false });
    assert.deepEqual(placeIn("#0,999.5,1500.5,below"), { x: 0, y: 999500000, zoom: 1500.5, isMirrored: true });
    for (const hash of ["", "#", "#1", "#1,", "#1,2,", "#1,2,0", "#1,2,-5", "#1,2,3,4", "#1001,2", "#1e3,2", "#a,b", "#%ff,%00",
      "#1,2,above", "#1.0000001,2", "#<img src=x>,1", `#${"9".repeat(5000)},1`, "#1,2,3,below,", "# 1,2", "#1,2\n"]) {
      assert.equal(placeIn(hash), null, hash);
    }
    const places = [{ x: 117937500, y: -85000001, zoom: 4, isMirrored: true }, { x: 0, y: 1, zoom: 666.6667, isMirrored: false }];
    for (const place of places) assert.deepEqual(placeIn(linkOf(place)), place);
  });

  test("a link that is copied leads back, in this page and in one that opens", async () => {
    const path = join(room(), "board.html");
    const inside = { title: "nightlight", lines: [], files: kicad(), pictures: [] };
    writeFileSync(path, withContents(readFileSync(builtPage(), "utf8"), inside));
    const all = await openBrowser(), browser = await Tab.open(all, { page: path });
    await settle(browser);
    await browser.call("Browser.grantPermissions", { permissions: ["clipboardReadWrite", "clipboardSanitizedWrite"],
      browserContextId: browser.context }, null);
    await browser.ask(`camplot.going.to({ x: ${PAD[0]}, y: ${PAD[1]}, zoom: 10000 })`);
    await settle(browser);
    const before = await browser.ask("[camplot.view.left, camplot.view.top, camplot.view.pitch]");
    await press(browser, "[data-act=link]");
    await browser.wait("/^The link/.test(document.getElementById('told').textContent)");
    const link = await browser.ask("navigator.clipboard.readText()");
    assert.equal(link, `${pathToFileURL(path).href}#117.9375,-85.000,10000`);
    await browser.key("0");
    await idle(browser);
    const view = () => browser.ask("[camplot.view.left, camplot.view.top, camplot.view.pitch]");
    assert.notDeepEqual(await view(), before);
    const hash = link.replace(/^.*#/, "#");
    await browser.ask(`location.hash = ${JSON.stringify(hash)}`);
    await browser.wait("camplot.view.pitch === 10000");
    assert.deepEqual(await view(), before);
    assert.equal(await browser.ask("location.hash"), "");
    // A page that opens by the link, beside what the browser keeps of it.
    await browser.key("0");
    await idle(browser);
    await browser.close();
    const other = new Tab(all, browser.context);
    await other.attach([]);
    await other.call("Page.navigate", { url: link });
    await other.arrive();
    assert.deepEqual(await other.ask("[camplot.view.left, camplot.view.top, camplot.view.pitch]"), before);
    assert.equal(await other.ask("camplot.state.layers.length"), 8);
    await other.close();
  });

  test("an address that names no place moves nothing, and is told", async () => {
    const browser = await withPads(), view = () => browser.ask("[camplot.view.left, camplot.view.top, camplot.view.pitch]");
    const before = await view();
    for (const nonsense of ["#1,2,0", "#<img src=x onerror=alert(1)>", "#%zz", "#9999999,1,1"]) {
      await browser.ask(`location.hash = ${JSON.stringify(nonsense)}`);
      await browser.wait("/^The address names no place/.test(document.getElementById('told').textContent)");
      await browser.ask("camplot.machine.send({ kind: 'say', text: '' })");
      assert.deepEqual(await view(), before);
    }
    assert.deepEqual(browser.complaints(), []);
  });

  test("a browser that copies nothing has the link told", async () => {
    const browser = await withPads();
    await browser.ask("navigator.clipboard.writeText = () => Promise.reject(new Error('no'))");
    await browser.ask("camplot.going.to({ x: 2000000, y: 0, zoom: 5000 })");
    await press(browser, "[data-act=link]");
    await browser.wait("/#2\\.000,0\\.000,5000$/.test(document.getElementById('told').textContent)", 60);
    assert.match(await text(browser, "told"), /^The browser copies nothing here; the link to this view is file:/);
    assert.deepEqual(browser.complaints(), []);
  });

  test("a link that is opened before there is a board leads there when one is opened", async () => {
    const browser = await openPage();
    await browser.ask("location.hash = '#117.9375,-85,20000'");
    await browser.wait("camplot.going.later !== null");
    await give(browser, kicad());
    await settle(browser);
    await assertCentre(browser, PAD);
    assert.equal(await browser.ask("camplot.view.pitch"), 20000);
    await browser.key("0");
    await idle(browser);
    assert.notEqual(await browser.ask("camplot.view.pitch"), 20000);
  });
});
