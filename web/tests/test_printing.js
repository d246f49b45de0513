// The board to scale as PDF by the print dialogue: the page of the PDF has the board's size, and its picture the board's colours.

import assert from "node:assert/strict";
import { gerber, give, lines, openPage, settle, text } from "./support.js";
import { inflateSync } from "node:zlib";
import { idle } from "./looking.js";
import { answer, press } from "./hands.js";
import { suite, test } from "../../tools/tests/harness.js";

const POINTS_PER_MM = 72 / 25.4;

// The sides of the pages of a PDF in mm, by the boxes of its page objects, packed ones too.
function pagesOf(pdf) {
  const texts = [pdf.toString("latin1")];
  for (const found of texts[0].matchAll(/stream\r?\n/g)) {
    try {
      texts.push(inflateSync(pdf.subarray(found.index + found[0].length)).toString("latin1"));
    } catch {
      // A stream that is packed in another way has no page.
    }
  }
  return texts.flatMap((part) => [...part.matchAll(/\/MediaBox ?\[ ?([-\d. ]+?) ?\]/g)]).map(([, box]) => {
    const [left, low, right, high] = box.split(" ").map(Number);
    return [right - left, high - low].map((points) => points / POINTS_PER_MM);
  });
}

// Asks for the print in the dialogue of pictures, and prints as the browser would.
async function printed(browser) {
  await browser.ask("globalThis.print = () => { globalThis.isPrinting = true; }; globalThis.isPrinting = false");
  await press(browser, "[data-act=give]");
  await browser.wait("document.getElementById('question').open");
  await browser.ask("document.querySelector('#question-body select').focus()");
  for (let down = 0; down < 2; down++) await browser.key("ArrowDown");
  assert.equal(await browser.ask("document.querySelector('#question-body select').value"), "print");
  await answer(browser, /Save/);
  await browser.wait("globalThis.isPrinting", 60);
  const { data } = await browser.call("Page.printToPDF", { preferCSSPageSize: true, printBackground: true });
  return pagesOf(Buffer.from(data, "base64"));
}

const inkAt = (browser, x, y) => browser.ask(`(() => { const canvas = document.querySelector("#sheet canvas");
  return [...canvas.getContext("2d").getImageData(Math.round(${x} * canvas.width), Math.round(${y} * canvas.height), 1, 1).data].slice(0, 3); })()`);

async function withPads() {
  const browser = await openPage();
  await give(browser, [{ name: "a.gtl", bytes: gerber("X0Y0D03*", "X40000000Y0D03*", "X40000000Y20000000D03*") }]);
  await settle(browser);
  return browser;
}

const isNear = (one, other) => Math.abs(one - other) < 0.4;

suite("printing", () => {
  test("to scale on one page of the board's size", async () => {
    const browser = await withPads();
    await browser.ask("globalThis.addEventListener('beforeprint', () => { globalThis.wide = document.querySelector('#sheet canvas').getBoundingClientRect().width; })");
    const pages = await printed(browser);
    assert.equal(pages.length, 1, `${pages}`);
    // 41 by 21 mm, and a pixel on each side; a page of PDF is of whole points of 0.35 mm.
    assert.ok(isNear(pages[0][0], 41) && isNear(pages[0][1], 21), `${pages}`);
    assert.match(await text(browser, "told"), /^The shown layers go to the printer, 41\.0\d+ by 21\.0\d+ mm, with pixels of [\d,]+ nm: print at actual size\.$/);
    assert.equal((await lines(browser)).length, 1);
    assert.deepEqual(browser.complaints(), []);
  });

  test("on white paper, mirrored from below, turned as the view is; afterwards nothing of it is left", async () => {
    const browser = await withPads();
    await browser.ask("globalThis.removeLater = () => {}; const { addEventListener } = window; window.addEventListener = function(kind, run, more) {"
      + " if (kind === 'afterprint') globalThis.removeLater = run; else addEventListener.call(window, kind, run, more); }");
    await press(browser, "[data-act=below]");
    await browser.key("T", 8);
    const pages = await printed(browser);
    assert.ok(isNear(pages[0][0], 21) && isNear(pages[0][1], 41), `${pages}`);
    // Pads at the lower left, the lower right and the upper right are, mirrored and turned, at the upper right, the lower right and the lower left.
    const [one, two, three, none] = [await inkAt(browser, 0.97, 0.02), await inkAt(browser, 0.97, 0.98), await inkAt(browser, 0.03, 0.98), await inkAt(browser, 0.03, 0.02)];
    assert.deepEqual(none, [255, 255, 255]);
    for (const ink of [one, two, three]) assert.ok(ink[0] > ink[1] + 50, `${[one, two, three]}`);
    await browser.ask("removeLater()");
    assert.deepEqual(await browser.ask("[document.getElementById('sheet').children.length, [...document.styleSheets[0].cssRules].some((rule) => /@page/.test(rule.cssText))]"), [0, false]);
    assert.deepEqual(browser.complaints(), []);
  });

  test("nothing is printed where no layer is shown", async () => {
    const browser = await withPads();
    await browser.ask("camplot.machine.send({ kind: 'show', name: null, isShown: false })");
    await browser.ask("camplot.machine.gesture({ kind: 'give', form: 'print', pitch: NaN })");
    await idle(browser);
    assert.equal(await text(browser, "told"), "No layer is shown.");
  });
});
