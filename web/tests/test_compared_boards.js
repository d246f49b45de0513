// Two boards compared on the page, as a user does it: dropped, chosen or in another tab; planted differences are found at their
// places and nothing else, each place is led to with its pictures, and a report is saved.

import assert from "node:assert/strict";
import { COUNT, HOLES, SILK, TOP, atPlace, colours, differing, dropOnCompare, inFolder, isDone, openPanel, planted, told, withBoard, zipped } from "./two_boards.js";
import { SHIFT, gerber, kicad, openPage, savedFile, settle } from "./support.js";
import { drop, onDisk, openFiles, press, toBoard, typeLine } from "./hands.js";
import { screen } from "./fingers.js";
import { stroke } from "./keyboard.js";
import { rest } from "./seen.js";
import { suite, test } from "../../tools/tests/harness.js";
import { tabs } from "./tab.js";

const open = tabs();
const HOLE = "X113.5Y-95.5";
const summary = (same, picture, differs) => `${COUNT} pairs of layers: ${same} the same, ${picture} the same picture, ${differs} different`;

suite("another revision that is dropped on compare", () => {
  for (const [name, file, from, to, outcome, words, besides, change] of [
    ["a hole moved by 1 nm", HOLES, HOLE, "X113.500001Y-95.5", "same picture", /^the same picture at pixels of 25400 nm; items differ at 1 place$/, [],
      /^moved by \(0\.000001, 0\.000\) mm: hole, tool of 0\.800, at \(113\.500, -95\.500\)$/],
    ["another aperture", TOP, "%ADD11O,1.700000X1.700000*%", "%ADD11O,1.700000X1.900000*%", "differs", /^differs at 1 place, by pixels of 25400 nm$/, [],
      /^another aperture: flash, obround of 1\.700 by 1\.700, .*; now flash, obround of 1\.700 by 1\.900/],
    ["a hole less", HOLES, `${HOLE}\n`, "", "differs", /^differs at 1 place/, [], /^went: hole/],
    ["a date alone", TOP, "%TF.CreationDate,2024-09-02", "%TF.CreationDate,2025-01-01", "same", /^the same$/, [/^date: \.CreationDate/], null],
    ["an attribute alone", TOP, "%TF.ProjectId,nightlight", "%TF.ProjectId,daylight", "same", /^the same$/, [/^attribute: \.ProjectId/], null],
  ]) {
    test(`has ${name}, which is found, and nothing else`, async () => {
      const browser = await withBoard();
      await dropOnCompare(browser, zipped(planted([file, from, to])));
      const found = await differing(browser), now = await told(browser);
      assert.deepEqual(found.map((pair) => pair.outcome), [outcome], JSON.stringify(found));
      assert.match(found[0].words, words);
      assert.equal(found[0].besides.length, besides.length, JSON.stringify(found[0].besides));
      besides.forEach((line, at) => assert.match(found[0].besides[at], line));
      assert.equal(now.said, summary(outcome === "same" ? COUNT : COUNT - 1, outcome === "same picture" ? 1 : 0, outcome === "differs" ? 1 : 0));
      assert.deepEqual([now.alone, now.titles], [[], "A nightlight this boardB rev2.zip"]);
      // The place is led to by itself.
      if (change) {
        await browser.wait("document.querySelectorAll('#two-boards-changes li').length > 0", 30);
        const { changes } = await told(browser);
        assert.equal(changes.length, 1);
        assert.match(changes[0], change);
      }
      assert.equal(await browser.ask("camplot.state.layers.length"), COUNT);
      assert.deepEqual(browser.complaints(), []);
    });
  }

  test("is opened by nobody else, and a copy of the board is the same in all", async () => {
    const browser = await withBoard();
    await dropOnCompare(browser, inFolder(kicad()));
    assert.deepEqual([(await told(browser)).said, await differing(browser)], [summary(COUNT, 0, 0), []]);
    assert.deepEqual(await browser.ask("[camplot.state.layers.length, camplot.told.length, document.getElementById('dropping').hidden]"), [COUNT, COUNT, true]);
    assert.deepEqual(browser.complaints(), []);
  });

  test("lacks a layer, and has one that shows another thing", async () => {
    const browser = await withBoard(), files = planted([SILK, "%TF.FileFunction,Legend,Top*%", "%TF.FileFunction,Legend,Bot*%"]);
    await dropOnCompare(browser, zipped(files.filter(({ name }) => !/B_Mask/.test(name))));
    const { alone, pairs } = await told(browser);
    assert.equal(alone.length, 1);
    assert.match(alone[0], /^bottom solder mask.*only in A: nightlight-B_Mask\.gbr$/);
    assert.ok(pairs.some(({ title }) => /^top silkscreen, now bottom silkscreen$/.test(title)), JSON.stringify(pairs));
  });

  test("that is no board is told, and one without a board open is not compared", async () => {
    const browser = await openPage({ width: 1440, height: 900 }), path = zipped([{ name: "notes.txt", bytes: Buffer.from("a list of parts\n") }]);
    await drop(browser, [path], await browser.ask("(({ x, y }) => [x + 20, y + 20])(document.querySelector('[data-act=compare-boards]').getBoundingClientRect())"));
    await browser.wait("document.getElementById('told').textContent === 'No layer is open.'", 30);
    const other = await withBoard();
    await drop(other, [path], await other.ask("(({ x, y }) => [x + 20, y + 20])(document.querySelector('[data-act=compare-boards]').getBoundingClientRect())"));
    await other.wait("/^They cannot be compared: no layer is recognised among the files of rev2\\.zip/.test(document.getElementById('two-boards-said').textContent)", 30);
  });
});

suite("places", () => {
  // The copper is changed at one place, the holes at two, far from one another.
  const three = () => planted([TOP, "%ADD11O,1.700000X1.700000*%", "%ADD11O,1.700000X1.900000*%"], [HOLES, HOLE, "X113.7Y-95.5"], [HOLES, "X122.5Y-82.5\n", ""]);

  test("follow one another by N and Shift N over all layers, and the panel has its keys for itself", async () => {
    const browser = await withBoard();
    await dropOnCompare(browser, zipped(three()));
    const order = (await told(browser)).pairs.map(({ words }, at) => [at, Number(/at (\d+) place/.exec(words)?.[1] ?? 0)]).filter(([, count]) => count);
    const places = order.flatMap(([pair, count]) => Array.from({ length: count }, (_, place) => [pair, place]));
    assert.equal(places.length, 3);
    await atPlace(browser, ...places[0]);
    for (const place of [places[1], places[2], places[0]]) {
      await stroke(browser, "n");
      await atPlace(browser, ...place);
    }
    await stroke(browser, "N", SHIFT);
    await atPlace(browser, ...places[2]);
    assert.match((await told(browser)).where, /place \d of \d, 3 of 3 in all$/);
    assert.equal(await browser.ask("camplot.state.tool"), "pick");
    // By buttons too; a pair by its row.
    await press(browser, "#two-boards-next");
    await atPlace(browser, ...places[0]);
    await press(browser, "#two-boards-back");
    await atPlace(browser, ...places[2]);
    await press(browser, `#two-boards-pairs [data-row='${places[0][0]}'] button`);
    await atPlace(browser, ...places[0]);
    // The board is led to the place.
    await press(browser, "#two-boards-show");
    await settle(browser);
    assert.equal((await told(browser)).isOpen, false);
    assert.ok(await browser.ask("camplot.view.pitch < 20000"), "the view is close to the place");
    await stroke(browser, "D", SHIFT);
    assert.equal((await told(browser)).isOpen, true);
    assert.deepEqual(browser.complaints(), []);
  });

  test("are shown in both colours, by an edge that is dragged, and one after the other", async () => {
    const browser = await withBoard();
    await dropOnCompare(browser, zipped(planted([HOLES, HOLE, "X113.7Y-95.5"])));
    await browser.wait("document.getElementById('two-boards-place').dataset.place", 30);
    await screen(browser, "two-boards");
    const all = await colours(browser);
    assert.ok(all.both > 1000 && all.a > 100 && all.b > 100 && all.frame > 50, JSON.stringify(all));
    await press(browser, "#two-boards-place [value=slider]");
    // A is at the left of the edge, B at its right.
    const [left, right] = [await colours(browser, 0, 490), await colours(browser, 510, 1000)];
    assert.ok(left.b === 0 && right.a === 0 && left.a + right.b > 100, JSON.stringify([left, right]));
    const box = await browser.ask("(({ x, y, width, height }) => [x, y, width, height])(document.querySelector('.two-boards-canvas').getBoundingClientRect())");
    await browser.drag([box[0] + box[2] / 2, box[1] + box[3] / 2], [box[0] + box[2] - 2, box[1] + box[3] / 2]);
    const first = await colours(browser);
    assert.ok(first.b < 20 && first.a > 100, JSON.stringify(first));
    await press(browser, "#two-boards-place [value=blink]");
    const seen = new Set();
    for (let turn = 0; turn < 60 && seen.size < 2; turn++) {
      const { a, b } = await colours(browser);
      seen.add(a > 100 && b < 20 ? "A" : b > 100 && a < 20 ? "B" : `${a} ${b}`);
      await new Promise((done) => { setTimeout(done, 60); });
    }
    assert.deepEqual([...seen].sort(), ["A", "B"]);
    assert.deepEqual(browser.complaints(), []);
  });

  test("of a move by 1 nm is framed, where no pixel shows it", async () => {
    const browser = await withBoard();
    await dropOnCompare(browser, zipped(planted([HOLES, HOLE, "X113.500001Y-95.5"])));
    await browser.wait("document.getElementById('two-boards-place').dataset.place", 30);
    const { line } = await told(browser), { a, b, frame } = await colours(browser);
    assert.match(line, /^at \(113\.500\d*, -95\.500\), .*; too small for a pixel\. The picture has pixels of \d+ nm\.$/);
    assert.deepEqual([a, b, frame > 50], [0, 0, true]);
    assert.deepEqual(browser.complaints(), []);
  });
});

suite("the other board", () => {
  test("is chosen as files or as a folder, is exchanged with this one, and compared by finer pixels", async () => {
    const browser = await withBoard(), files = planted([HOLES, `${HOLE}\n`, ""]);
    await openPanel(browser);
    assert.equal((await told(browser)).isOpen, true);
    await openFiles(browser, onDisk(Object.fromEntries(files.map(({ name, bytes }) => [name, bytes]))), "two-boards-files");
    await isDone(browser);
    assert.match((await told(browser)).titles, /B 8 files$/);
    assert.match((await told(browser)).changes[0] ?? "", /^went: hole|^$/);
    await press(browser, "#two-boards-swap");
    await browser.wait("/^A 8 files/.test(document.getElementById('two-boards-titles').textContent)", 30);
    await isDone(browser);
    await browser.wait("document.querySelectorAll('#two-boards-changes li').length > 0", 30);
    assert.match((await told(browser)).changes[0], /^came: hole/);
    await browser.ask("(() => { const pitch = document.querySelector('#two-boards select'); pitch.value = '10000'; pitch.dispatchEvent(new Event('change')); })()");
    await browser.wait("/pixels of 10000 nm/.test(document.getElementById('two-boards-pairs').textContent)", 60);
    assert.deepEqual(browser.complaints(), []);
  });

  test("is that of another tab, with its edits, and the board that is shown is compared as it is edited", async () => {
    const tab = await open(), pads = (...at) => gerber(...at.map((x) => `X${x}Y0D03*`));
    await drop(tab, onDisk({ "lamp-F.gtl": pads(0, 2000000, 4000000), "lamp-B.gbl": pads(0, 2000000) }));
    await tab.wait("camplot.state.layers.length === 2", 60);
    await rest(tab);
    await press(tab, "[data-act=new-board]");
    await rest(tab);
    await drop(tab, onDisk({ "lamp2-F.gtl": pads(0, 2000000, 4000000), "lamp2-B.gbl": pads(0, 2000000) }));
    await tab.wait("camplot.state.layers.length === 2", 60);
    await rest(tab);
    await typeLine(tab, "move top 1 1 0");
    await rest(tab);
    await toBoard(tab);
    await openPanel(tab);
    assert.equal(await tab.ask("document.querySelectorAll('.two-boards-tab').length"), 1);
    await press(tab, ".two-boards-tab");
    await isDone(tab);
    const found = (await told(tab)).pairs.filter(({ outcome }) => outcome !== "same");
    assert.deepEqual(found.map(({ title, outcome }) => [title, outcome]), [["top copper", "same picture"]], JSON.stringify(found));
    await tab.wait("document.querySelectorAll('#two-boards-changes li').length > 0", 30);
    assert.deepEqual((await told(tab)).changes, ["moved by (-0.000001, 0.000) mm: flash, circle of 1.000, at (2.000001, 0.000)"]);
    // An undo makes both the same again; the panel says that it is of before.
    await stroke(tab, "Escape");
    await tab.key("z", 2);
    await rest(tab);
    await openPanel(tab);
    assert.match((await told(tab)).said, /changed since it was compared/);
    await press(tab, "#two-boards-again");
    await isDone(tab);
    assert.deepEqual((await told(tab)).pairs.map(({ outcome }) => outcome), ["same", "same"]);
    assert.deepEqual(tab.complaints(), []);
  });

  test("is that of a tab that was not shown since the page was loaded", async () => {
    const tab = await open();
    await drop(tab, onDisk({ "lamp-F.gtl": gerber("X0Y0D03*") }));
    await tab.wait("camplot.state.layers.length === 1", 60);
    await rest(tab);
    await press(tab, "[data-act=new-board]");
    await rest(tab);
    await drop(tab, onDisk({ "lamp-F.gtl": gerber("X0Y0D03*", "X3000000Y0D03*") }));
    await tab.wait("camplot.state.layers.length === 1", 60);
    await rest(tab);
    await tab.reload();
    await rest(tab);
    await openPanel(tab);
    await press(tab, ".two-boards-tab");
    await isDone(tab);
    assert.deepEqual((await told(tab)).pairs.map(({ outcome }) => outcome), ["differs"]);
    assert.deepEqual(tab.complaints(), []);
  });

  test("has a file that is converted to be read, which is told, and one that is refused", async () => {
    const browser = await withBoard([{ name: "a.gtl", bytes: gerber("X25400000Y0D03*") }, { name: "b.gbl", bytes: gerber("X0Y0D03*") }]);
    // (two commands between two %, which no layer may have, and which need no choice)
    const old = "%FSLAX24Y24*MOIN*%\n%ADD10C,0.03937*%\nD10*\nX10000Y0D03*\nM02*\n";
    await dropOnCompare(browser, zipped([{ name: "a.gtl", bytes: Buffer.from(old) }, { name: "b.gbl", bytes: Buffer.from("%FSLAX46Y46*%\n%MOMM*%\nD99*\nM02*\n") }]));
    const { pairs } = await told(browser), [bottom, top] = ["bottom copper", "top copper"].map((title) => pairs.find((pair) => pair.title === title));
    assert.match(top.besides.join("\n"), /^B: it was converted to be read: /);
    assert.match(bottom.words, /^B: refused \d+/);
    assert.equal(bottom.outcome, "refused");
  });
});

suite("the report", () => {
  test("is one file with pictures of each place, which loads nothing, and in which names and values are text", async () => {
    const browser = await withBoard(), evil = '<img src=x onerror="alert(1)">';
    const files = planted([HOLES, `${HOLE}\n`, ""], [TOP, "%TF.ProjectId,nightlight", `%TF.ProjectId,${evil}`]);
    files.find(({ name }) => name === SILK).name = "<script>alert(1)<.gbr";
    await dropOnCompare(browser, zipped(files, "<b>rev2.zip"));
    assert.equal(await browser.ask("document.querySelectorAll('#two-boards img, #two-boards script').length"), 0);
    await press(browser, "#two-boards-report");
    const { name, bytes } = await savedFile(browser), page = bytes.toString("utf8");
    assert.equal(name, "compared.html");
    assert.equal(page.match(/<img /g).length, 3);
    assert.equal(page.match(/src="data:image\/png;base64,[A-Za-z0-9+/=]+"/g).length, 3);
    assert.ok(!/<script|<img src=x|<b>rev2|https?:|url\(/i.test(page));
    assert.ok(page.includes("&lt;img src=x onerror=") && page.includes("&lt;script&gt;") && page.includes("&lt;b&gt;rev2.zip"));
    assert.match(page, /Content-Security-Policy" content="default-src 'none'; img-src data:; style-src 'unsafe-inline'"/);
    assert.match(page, /went: hole/);
    assert.match(page, /8 pairs of layers: 7 the same, 0 the same picture, 1 different/);
    assert.deepEqual(browser.complaints(), []);
  });
});
