// The view while it moves: what was painted goes with it, and at rest its pixels are those of a page that was opened there. An edit
// composes anew what it touched.

import assert from "node:assert/strict";
import { readFileSync, writeFileSync } from "node:fs";
import { join } from "node:path";
import { builtPage, clickAt, gerber, give, kicad, onPage, openPage, picked, room, run, settle } from "./support.js";
import { rowsOf, touchedRows } from "../worker/touched_rows.js";
import { suite, test } from "../../tools/tests/harness.js";

const SIDES = { width: 900, height: 640 };
const PADS = [{ name: "pads.gtl", bytes: gerber(...[0, 2, 4, 6].map((x) => `X${x}000000Y0D03*`)) }];
// Beside the rulers, and where a moved picture covers the view.
const EDGE = 120;

// The board lies on whole pixels of the screen: else the browser would squeeze what is painted by a part of one.
async function withFiles(files, scale, options = {}) {
  const browser = await openPage({ ...SIDES, scale, ...options });
  await browser.ask("Object.assign(document.getElementById('stage').style, { position: 'fixed', inset: '90px 40px 60px 40px' }) && null");
  await give(browser, files);
  await browser.ask("camplot.idle()");
  await settle(browser);
  return browser;
}

// The view moves until it is let rest, however long a frame takes on this machine.
const hold = (browser) => browser.ask("Object.defineProperty(camplot.view, 'isMoving', { get: () => true, configurable: true }) && null");
async function rest(browser) {
  await browser.ask(`(({ view }) => {
    for (const name of ["isMoving", "request", "compose"]) delete view[name];
    view.moved = -1000;
    view.wake();
  })(camplot)`);
  await settle(browser);
}

// The same, and nothing comes from the worker meanwhile.
async function holdAlone(browser) {
  await hold(browser);
  await browser.ask("camplot.view.request = () => { camplot.view.isWanted = false; }; camplot.view.compose = () => {}; null");
}

// Does something in each of so many frames; whether what is painted went with the view in one of them.
const inFrames = (browser, count, act) => browser.ask(`(async () => {
  const { view } = camplot;
  let wasAway = false;
  for (let k = 0; k < ${count}; k++) {
    ${act};
    await new Promise(requestAnimationFrame);
    await new Promise(requestAnimationFrame);
    wasAway ||= view.gliding.isAway;
  }
  return wasAway;
})()`);

const WHEEL = `document.getElementById("marks").dispatchEvent(new WheelEvent("wheel", { deltaY: k % 3 ? -60 : 40, clientX: 400,
  clientY: 300, bubbles: true, cancelable: true }))`;

// The pixels of the canvas, all of them as one number.
const canvasSum = (browser) => browser.ask(`(async () => {
  camplot.marks.pointer = null;
  camplot.view.paintNow();
  const { canvas, context } = camplot.view, { data } = context.getImageData(0, 0, canvas.width, canvas.height);
  return [...new Uint8Array(await crypto.subtle.digest("SHA-256", data))].join();
})()`);

// What is on the screen: an expression over `at(x, y)`, a pixel of the stage in device pixels, and its sides.
async function onScreen(browser, expression) {
  const { data } = await browser.call("Page.captureScreenshot", { format: "png" });
  return browser.ask(`(async () => {
    const bytes = Uint8Array.from(atob("${data}"), (letter) => letter.charCodeAt(0));
    const bitmap = await createImageBitmap(new Blob([bytes], { type: "image/png" }));
    const context = new OffscreenCanvas(bitmap.width, bitmap.height).getContext("2d");
    const stage = document.getElementById("stage").getBoundingClientRect();
    context.drawImage(bitmap, 0, 0);
    const { density, canvas: { width, height } } = camplot.view;
    const [left, top] = [stage.left, stage.top].map((side) => Math.round(side * density));
    const whole = new Uint32Array(context.getImageData(left, top, width, height).data.buffer), at = (x, y) => whole[y * width + x];
    return ${expression};
  })()`);
}

const MIDDLE = `(() => {
  const rows = [];
  for (let y = ${EDGE}; y < height - ${EDGE}; y++) rows.push(whole.subarray(y * width + ${EDGE}, (y + 1) * width - ${EDGE}).join());
  return rows.join(";");
})()`;

// A page that is opened where another one is.
async function openedThere(files, scale, other, options) {
  const browser = await withFiles(files, scale, options), seen = await other.ask("camplot.view.seen");
  await browser.ask(`camplot.view.show(${JSON.stringify(seen)})`);
  await settle(browser);
  return browser;
}

for (const scale of [1, 2]) {
  suite(`at ${scale} device pixels for one`, () => {
    test("after pans and zooms the pixels are those of a page that was opened there", async () => {
      const browser = await withFiles(kicad(), scale);
      await hold(browser);
      assert.equal(await inFrames(browser, 12, "view.pan(3, 2)"), true);
      await rest(browser);
      const panned = await openedThere(kicad(), scale, browser);
      assert.equal(await canvasSum(browser), await canvasSum(panned));
      await hold(browser);
      assert.equal(await inFrames(browser, 8, WHEEL), true);
      await rest(browser);
      const zoomed = await openedThere(kicad(), scale, browser);
      assert.equal(await canvasSum(browser), await canvasSum(zoomed));
      assert.equal(await onScreen(browser, MIDDLE), await onScreen(zoomed, MIDDLE));
      assert.deepEqual(browser.complaints(), []);
    });

    test("what goes with the view has the pixels that are painted there, also from below and turned", async () => {
      const browser = await withFiles(kicad(), scale);
      for (const quarters of [0, 1, 2, 3]) {
        await browser.ask(`camplot.view.mirror(${quarters % 2 === 1}); camplot.view.turnTo(${quarters})`);
        await settle(browser);
        await holdAlone(browser);
        assert.equal(await inFrames(browser, 5, "view.pan(7, -4)"), true, `${quarters} quarters`);
        const moved = await onScreen(browser, MIDDLE);
        await browser.ask("camplot.view.paintNow()");
        assert.equal(await browser.ask("camplot.view.gliding.isAway"), false);
        assert.ok(moved === await onScreen(browser, MIDDLE), `${quarters} quarters`);
        await rest(browser);
      }
    });

    test("a click in the middle of a movement picks what is drawn under it", async () => {
      const browser = await withFiles(PADS, scale);
      await holdAlone(browser);
      await inFrames(browser, 6, "view.pan(9, 6)");
      for (const x of [2000000, 6000000]) {
        assert.equal(await browser.ask("camplot.view.gliding.isAway"), true);
        const place = `camplot.view.placeOf(${x}, 0)`, bare = `camplot.view.placeOf(${x + 1000000}, 0)`;
        const [pad, beside] = await onScreen(browser, `[${place}, ${bare}].map(({ x, y }) => at(Math.round(x), Math.round(y)))`);
        assert.notEqual(pad, beside);
        await browser.click(...await onPage(browser, x, 0));
        await browser.ask("camplot.idle()");
        assert.match((await picked(browser)).join(), new RegExp(` ${x} 0 `));
        await inFrames(browser, 3, "view.pan(-5, 3)");
      }
      await rest(browser);
    });

    test("marks, signs and rulers go with it, and are sharp at rest", async () => {
      const dress = async (browser) => {
        await browser.ask("camplot.machine.send({ kind: 'setting', changes: { origin: { x: 4000000, y: 0 } } })");
        await browser.ask("camplot.pick([{ name: 'top', place: 1 }])");
        await browser.ask("camplot.idle()");
        await settle(browser);
      };
      const browser = await withFiles(PADS, scale);
      await dress(browser);
      await holdAlone(browser);
      assert.equal(await inFrames(browser, 6, "view.pan(-8, 5)"), true);
      // The outline of what is picked is where it is in the view now, and a ruler covers what went over it.
      const inked = (x) => `(() => { const place = camplot.view.placeOf(${x}, 0), found = new Set();
        for (let far = -4; far <= 4; far++) found.add(at(Math.round(place.x) + far, Math.round(place.y))); return found.size; })()`;
      assert.ok(await onScreen(browser, inked(1500000)) > 2);
      assert.equal(await browser.ask("[...document.querySelectorAll('.ruler')].filter(({ hidden }) => !hidden).length"), 2);
      const rulers = "[...whole.subarray(0, width * 18 * density)].join()", moved = await onScreen(browser, rulers);
      await rest(browser);
      assert.equal(await browser.ask("[...document.querySelectorAll('.ruler, .glides')].filter(({ hidden }) => !hidden).length"), 0);
      assert.ok(moved === await onScreen(browser, rulers), "the ruler");
      const other = await openedThere(PADS, scale, browser);
      await dress(other);
      assert.equal(await canvasSum(browser), await canvasSum(other));
    });
  });
}

suite("a view that moves", () => {
  test("rests at the same pixels where nothing is to move by itself", async () => {
    const browser = await withFiles(kicad(), 1);
    await browser.call("Emulation.setEmulatedMedia", { features: [{ name: "prefers-reduced-motion", value: "reduce" }] });
    assert.equal(await browser.ask("matchMedia('(prefers-reduced-motion: reduce)').matches"), true);
    await hold(browser);
    await inFrames(browser, 6, "view.pan(4, 3)");
    await inFrames(browser, 6, WHEEL);
    await rest(browser);
    assert.equal(await canvasSum(browser), await canvasSum(await openedThere(kicad(), 1, browser)));
  });

  test("is painted anew where what was painted is far away, turned or of another size", async () => {
    const browser = await withFiles(kicad(), 1);
    await holdAlone(browser);
    const isPainted = (act) => browser.ask(`(async () => { const { view } = camplot; ${act}; await new Promise(requestAnimationFrame);
      await new Promise(requestAnimationFrame); return !view.gliding.isAway; })()`);
    for (const [act, is] of [["view.pan(5, 5)", false], ["view.pan(view.canvas.width / 2, 0)", true], ["view.zoom(1.5, 300, 200)", false],
      ["view.zoom(20, 300, 200)", true], ["view.pan(5, 5)", false], ["view.turnTo(1)", true], ["view.pan(5, 5)", false],
      ["view.mirror(true)", true], ["view.pan(5, 5)", false], ["camplot.marks.draw()", true]]) {
      assert.equal(await isPainted(act), is, act);
    }
    await rest(browser);
  });
});

suite("an edit", () => {
  test("composes anew only what it touched, and the pixels are those of all composed anew", async () => {
    // A page whose worker sends no picture that is drawn in part, however long a layer takes.
    const page = join(room(), "whole.html"), parts = "const PART_MS = 200,", text = readFileSync(builtPage(), "utf8");
    assert.equal(text.split(parts).length, 2);
    writeFileSync(page, text.replace(parts, "const PART_MS = 1e9,"));
    const browser = await withFiles(kicad(), 1, { page });
    await browser.ask("camplot.fit()");
    await settle(browser);
    for (const line of ["move top 0 300000 0", "undo", "delete top 3", "move top-silk 0 0 200000"]) {
      const before = await browser.ask("camplot.view.version");
      await browser.ask("globalThis.before = new Set(camplot.view.composed.shown.bands.map(({ bitmap }) => bitmap))");
      assert.match((await run(browser, line))[0], /^ok/, line);
      await browser.wait(`camplot.view.version > ${before}`);
      await settle(browser);
      const { kept, count } = await browser.ask(`(({ bands }) => ({ kept: bands.filter(({ bitmap }) => before.has(bitmap)).length,
        count: bands.length }))(camplot.view.composed.shown)`);
      assert.ok(kept > 0 && kept < count, `${line}: ${kept} of ${count} bands are kept`);
      const sum = await canvasSum(browser);
      await browser.ask("camplot.view.change()");
      await settle(browser);
      assert.equal(sum, await canvasSum(browser), line);
    }
    const pictures = await browser.ask("camplot.scriptText()"), other = await openedThere(kicad(), 1, browser);
    assert.match(pictures, /move top-silk/);
    await run(other, "delete top 3", "move top-silk 0 0 200000");
    await settle(other);
    assert.equal(await canvasSum(browser), await canvasSum(other));
  });

  test("of all rows of a picture names those that differ", () => {
    const made = (width, height, mark) => {
      const head = `P4\n${width} ${height}\n`, stride = width + 7 >> 3, file = new Uint8Array(head.length + stride * height);
      file.set(Buffer.from(head));
      const picture = { width, height, stride, bits: file.subarray(head.length) };
      for (const [byte, value] of mark) picture.bits[byte] = value;
      return picture;
    };
    for (const [width, height] of [[8, 2], [16, 10], [200, 64], [24, 7]]) {
      const count = (width + 7 >> 3) * height, stride = width + 7 >> 3;
      for (let at = 0; at < count; at++) {
        for (const end of [at, Math.min(count - 1, at + 37)]) {
          const before = made(width, height, []), now = made(width, height, [[at, 1], [end, 255]]);
          const { from, to } = touchedRows(before, now, 2);
          const [first, last] = [Math.floor(at / stride), Math.floor(end / stride)];
          assert.ok(from <= first && to > last && from % 2 === 0 && to <= height, `${width} ${height}: ${at} ${end}: ${from} ${to}`);
          assert.ok(first - from < 3 + 4 / stride && to - last < 5 + 8 / stride, `${width} ${height}: ${at} ${end}: ${from} ${to}`);
          assert.deepEqual([rowsOf(now, { from, to }).height, rowsOf(now, { from, to }).bits.length], [to - from, (to - from) * stride]);
        }
      }
      assert.equal(touchedRows(made(width, height, []), made(width, height, []), 2), null);
    }
  });

  test("of an item that is picked by a click is seen where the view moves on", async () => {
    const browser = await withFiles(PADS, 1);
    await clickAt(browser, 2000000, 0);
    await browser.ask("camplot.idle()");
    await hold(browser);
    await inFrames(browser, 3, "view.pan(6, 0)");
    await run(browser, "move top 1 0 1500000");
    await inFrames(browser, 3, "view.pan(2, 0)");
    await rest(browser);
    const sum = await canvasSum(browser);
    await browser.ask("camplot.view.change()");
    await settle(browser);
    assert.equal(sum, await canvasSum(browser));
  });
});
