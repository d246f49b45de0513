// What the page tells in words of an item that is clicked, and of one on which the pointer rests.

import assert from "node:assert/strict";
import { CTRL, clickAt, give, onPage, picked, run, settle, text, withBoard, withPads } from "./support.js";
import { pause, press } from "./hands.js";
import { suite, test } from "../../tools/tests/harness.js";
import { besideOf } from "../page/rest_tip.js";
import { idle } from "./looking.js";

// A corner of R1's first pad, beside the track that ends in its middle.
const CORNER = [108750000, -84500000];

const value = (browser, expression) => browser.ask(expression);
const rows = (browser, within) => value(browser, `[...document.querySelectorAll("${within} dt")].map((name) => [name.textContent, name.nextElementSibling.textContent])`);
const title = (browser) => value(browser, "document.querySelector('#picked h3').textContent");
const litPlaces = (browser) => value(browser, "camplot.state.lit?.items.map(({ name, place }) => `${name} ${place}`) ?? null");
const button = (of, at) => `#picked [data-row="${of}"] button:nth-of-type(${at})`;

async function withPad() {
  const browser = await withBoard();
  await clickAt(browser, ...CORNER);
  await idle(browser);
  return browser;
}

suite("a click", () => {
  test("tells an item in words and in the unit, with the station's line below them, folded", async () => {
    const browser = await withPad();
    assert.equal(await title(browser), "pad, round rectangle 1.025 by 1.40 mm, at 109.0875, -85.000");
    assert.deepEqual(await rows(browser, "#picked"), [["net", "+5V"], ["component", "R1"], ["pin", "1"], ["function", "SMD pad, defined by the copper"],
      ["aperture", "D12, round rectangle 1.025 by 1.40 mm, corners of radius 0.25 mm"], ["layer", "top copper"]]);
    assert.equal(await text(browser, "told"), "pad, round rectangle 1.025 by 1.40 mm, at 109.0875, -85.000; net +5V; component R1; pin 1; "
      + "function SMD pad, defined by the copper; layer top copper");
    const line = "#picked details[data-row=line]";
    assert.deepEqual(await value(browser, `[document.querySelector("${line}").open, document.querySelector("${line} summary").textContent,
      document.querySelector("${line} code").textContent]`), [false, "top 2, as the station has it", "flash 12 109087500 -85000000 r0 dark"]);
    await press(browser, `${line} summary`);
    await browser.key("u");
    await idle(browser);
    assert.equal(await title(browser), "pad, round rectangle 0.04035433 by 0.05511811 in, at 4.29478346, -3.34645669");
    // What is unfolded stays so.
    assert.equal(await value(browser, `document.querySelector("${line}").open`), true);
    assert.deepEqual(browser.complaints(), []);
  });

  test("has what its file says of it after edits of others, and none of a pasted one", async () => {
    const browser = await withPad();
    await run(browser, "delete top 0");
    await idle(browser);
    assert.deepEqual([await picked(browser), (await rows(browser, "#picked")).slice(0, 2)],
      [["top 1 flash 12 109087500 -85000000 r0 dark"], [["net", "+5V"], ["component", "R1"]]]);
    await run(browser, "reorder top 1 20");
    await idle(browser);
    assert.deepEqual((await rows(browser, "#picked")).slice(0, 3), [["net", "+5V"], ["component", "R1"], ["pin", "1"]]);
    await run(browser, "undo");
    await run(browser, "undo");
    await idle(browser);
    assert.deepEqual([await value(browser, "camplot.state.picked[0].place"), (await rows(browser, "#picked")).slice(0, 2)], [2, [["net", "+5V"], ["component", "R1"]]]);
    await run(browser, "insert top 3 flash 12 109087500 -80000000 r0 dark");
    await browser.ask("camplot.pick([{ name: 'top', place: 3 }])");
    await idle(browser);
    assert.deepEqual((await rows(browser, "#picked")).map(([name]) => name), ["function", "aperture", "layer"]);
    assert.equal(await title(browser), "pad, round rectangle 1.025 by 1.40 mm, at 109.0875, -80.000");
    assert.deepEqual(browser.complaints(), []);
  });

  test("all of its net, component and aperture are lit by a button, and picked by another one", async () => {
    const browser = await withPad();
    await press(browser, button("net +5V", 1));
    await idle(browser);
    const net = ["top 0", "top 2", "top 4", "top 17", "top 18", "top 19", "top 20", "top 21"];
    assert.deepEqual([(await litPlaces(browser)).sort(), await text(browser, "told")], [["bottom 0", ...net].sort(), "net +5V: 9 items."]);
    assert.equal(await value(browser, `document.querySelector('${button("net +5V", 1)}').getAttribute("aria-pressed")`), "true");
    await settle(browser);
    // The ink of what is lit is at the edge of J1's pad and not at that of J1's other one; the board is dimmed.
    const isLit = async (x, y) => value(browser, `(() => { const { view, marks } = camplot, at = view.placeOf(${x}, ${y}), ink = marks.colour("--ink-new").trim();
      const parts = [1, 3, 5].map((part) => parseInt(ink.slice(part, part + 2), 16)), { data } = view.context.getImageData(Math.round(at.x) - 3, Math.round(at.y), 7, 1);
      return [0, 4, 8, 12, 16, 20, 24].some((from) => parts.every((part, k) => Math.abs(data[from + k] - part) < 60)); })()`);
    assert.deepEqual([await isLit(103150000, -88300000), await isLit(103150000, -91270000)], [true, false]);
    // It follows an edit and another unit, and Escape ends it, with the pick left.
    await run(browser, "delete top 17");
    await idle(browser);
    assert.equal((await litPlaces(browser)).length, 8);
    await browser.key("Escape");
    await idle(browser);
    assert.deepEqual([await litPlaces(browser), (await picked(browser)).length], [null, 1]);
    await run(browser, "undo");
    await press(browser, button("component R1", 1));
    await idle(browser);
    assert.equal((await litPlaces(browser)).length, 16);
    await press(browser, button("component R1", 1));
    await idle(browser);
    assert.equal(await litPlaces(browser), null);
    await press(browser, button("net +5V", 2));
    await idle(browser);
    assert.deepEqual((await picked(browser)).map((words) => words.split(" ").slice(0, 2).join(" ")).sort(), ["bottom 0", ...net].sort());
    assert.equal(await text(browser, "told"), "net +5V: 9 items picked.");
    await clickAt(browser, ...CORNER);
    await idle(browser);
    await press(browser, button("aperture top D12", 2));
    await idle(browser);
    assert.deepEqual((await picked(browser)).map((words) => words.split(" ").slice(0, 4).join(" ")), ["top 2 flash 12", "top 3 flash 12", "top 4 flash 12", "top 5 flash 12"]);
    assert.deepEqual(browser.complaints(), []);
  });

  test("of a file without attributes tells the shape, and a name of a net is no HTML", async () => {
    const browser = await withPads();
    await clickAt(browser, 2000000, 0);
    await idle(browser);
    assert.deepEqual([await title(browser), await rows(browser, "#picked")],
      ["pad, circle 1.00 mm, at 2.000, 0.000", [["aperture", "D10, circle 1.00 mm"], ["layer", "top copper"]]]);
    const file = ["%FSLAX46Y46*%", "%MOMM*%", "%ADD10C,1.000000*%", "D10*", "%TO.N,<img src=x onerror=alert(1)>*%", "X0Y5000000D03*", "M02*"];
    await give(browser, [{ name: "b.gbl", bytes: Buffer.from(file.join("\n")) }]);
    await browser.ask("camplot.pick([{ name: 'bottom', place: 0 }])");
    await idle(browser);
    await browser.key("f", CTRL);
    await browser.type("onerror");
    await browser.wait("document.querySelectorAll('#find-results [role=option]').length === 1");
    assert.deepEqual((await rows(browser, "#picked"))[0], ["net", "<img src=x onerror=alert(1)>"]);
    assert.equal(await value(browser, "document.querySelectorAll('#picked img, #find img').length"), 0);
    assert.equal(await value(browser, "document.querySelector('#find-results b').textContent"), "<img src=x onerror=alert(1)>");
    assert.deepEqual(browser.complaints(), []);
  });
});

suite("a pointer that rests", () => {
  const isShown = (browser) => value(browser, "!document.getElementById('tip').hidden");
  const boxes = (browser) => value(browser, `(() => { const of = (box) => ({ left: box.left, top: box.top, right: box.right, low: box.bottom });
    const { view } = camplot, at = (x, y) => { const { x: left, y: top } = view.placeOf(x, y), stage = document.getElementById("marks").getBoundingClientRect();
      return { x: stage.left + left / view.density, y: stage.top + top / view.density }; };
    const one = at(108575000, -84300000), other = at(109600000, -85700000);
    return { tip: of(document.getElementById("tip").getBoundingClientRect()), pad: { left: one.x, top: one.y, right: other.x, low: other.y } }; })()`);
  const areApart = (one, other) => one.right < other.left || other.right < one.left || one.low < other.top || other.low < one.top;

  test("is told after half a second, next to the item, until it moves", async () => {
    const browser = await withBoard(), [x, y] = await onPage(browser, ...CORNER);
    await browser.mouse("mouseMoved", x, y);
    await pause(250);
    assert.equal(await isShown(browser), false);
    await browser.wait("!document.getElementById('tip').hidden", 10);
    assert.equal(await value(browser, "document.querySelector('#tip b').textContent"), "pad, round rectangle 1.025 by 1.40 mm, at 109.0875, -85.000");
    assert.deepEqual(await rows(browser, "#tip"), [["net", "+5V"], ["component", "R1"], ["pin", "1"], ["layer", "top copper"]]);
    const { tip, pad } = await boxes(browser);
    assert.ok(areApart(tip, pad) && areApart(tip, { left: x, top: y, right: x, low: y }), JSON.stringify({ tip, pad }));
    assert.equal(await value(browser, `document.elementFromPoint(${x}, ${y}).id`), "marks");
    await browser.mouse("mouseMoved", x + 2, y);
    assert.equal(await isShown(browser), false);
    // It says nothing where nothing lies.
    await browser.mouse("mouseMoved", ...await onPage(browser, 99000000, -79500000));
    await pause(900);
    assert.equal(await isShown(browser), false);
    // Escape takes the box away, and leaves what is picked.
    await clickAt(browser, ...CORNER);
    await idle(browser);
    await browser.mouse("mouseMoved", x + 1, y + 1);
    await browser.wait("!document.getElementById('tip').hidden", 10);
    await browser.key("Escape");
    await idle(browser);
    assert.deepEqual([await isShown(browser), (await picked(browser)).length], [false, 1]);
    assert.deepEqual(browser.complaints(), []);
  });

  test("is not told while something is dragged or drawn, nor of a finger", async () => {
    const browser = await withBoard(), [x, y] = await onPage(browser, ...CORNER);
    await browser.mouse("mouseMoved", x - 40, y);
    await browser.mouse("mousePressed", x - 40, y, { button: "left", clickCount: 1 });
    await browser.mouse("mouseMoved", x, y, { button: "left", buttons: 1 });
    await pause(900);
    assert.equal(await isShown(browser), false);
    await browser.mouse("mouseReleased", x, y, { button: "left", clickCount: 1 });
    await browser.key("1");
    await browser.mouse("mouseMoved", x + 1, y);
    await pause(900);
    assert.equal(await isShown(browser), false);
    await browser.key("v");
    await idle(browser);
    for (const [kind, isTold] of [["touch", false], ["pen", true]]) {
      await value(browser, `document.getElementById("marks").dispatchEvent(new PointerEvent("pointermove", { pointerType: "${kind}", pointerId: 7, clientX: ${x},
        clientY: ${y + 3 + (isTold ? 1 : 0)}, bubbles: true }))`);
      await pause(900);
      assert.equal(await isShown(browser), isTold, kind);
    }
    assert.deepEqual(browser.complaints(), []);
  });

  test("the box goes where there is room, and never over the area that it tells of", () => {
    const stage = { width: 400, height: 300 }, size = { width: 150, height: 60 }, area = (left, top, right, low) => ({ left, top, right, low });
    assert.deepEqual(besideOf(area(100, 100, 120, 110), { x: 105, y: 105 }, size, stage), { x: 134, y: 105 });
    assert.deepEqual(besideOf(area(300, 280, 320, 290), { x: 310, y: 285 }, size, stage), { x: 136, y: 240 });
    assert.deepEqual(besideOf(area(140, 100, 260, 120), { x: 200, y: 110 }, size, stage), { x: 200, y: 134 });
    assert.deepEqual(besideOf(area(140, 200, 260, 290), { x: 390, y: 250 }, size, stage), { x: 250, y: 126 });
    assert.equal(besideOf(area(10, 10, 390, 290), { x: 200, y: 150 }, size, stage), null);
    assert.equal(besideOf(area(0, 0, 1, 1), { x: 0, y: 0 }, { width: 500, height: 10 }, stage), null);
  });
});
