// A comparison goes with the view: at any zoom its pixels are those of the view, and what is said of texts stays.

import assert from "node:assert/strict";
import { gerber, give, kicad, openPage, run, settle, text, written } from "./support.js";
import { idle } from "./looking.js";
import { suite, test } from "../../tools/tests/harness.js";

const told = (browser) => text(browser, "compared-counts");
const pitchOf = (browser) => browser.ask("Number(camplot.state.comparison.window.split(' ')[3])");

// Waits until the comparison is that of the view.
async function compared(browser) {
  await settle(browser);
  await browser.wait("camplot.state.comparison.window === camplot.view.window()", 60);
  await idle(browser);
  await settle(browser);
}

const countsIn = (words) => [...words.matchAll(/([\d,]+) pixels? (?:in both|before alone|now alone|in the first alone|in the second alone)/g)]
  .map(([, count]) => Number(count.replace(/,/g, "")));

const colourAt = (browser, x, y) => browser.ask(`(() => { const { view } = camplot, at = view.placeOf(${x}, ${y});
  return [...view.context.getImageData(Math.round(at.x), Math.round(at.y), 1, 1).data].slice(0, 3); })()`);

suite("a comparison with before", () => {
  test("of a whole board is that of each view, at its own pitch, and changes nothing", async () => {
    const browser = await openPage();
    await give(browser, kicad());
    await settle(browser);
    // 3 nm, which the whole board does not show.
    await run(browser, "move top 6 3 0");
    const before = await written(browser, "top");
    await browser.ask("camplot.compare(1)");
    await compared(browser);
    assert.match(await told(browser), /differs in: top copper/);
    assert.deepEqual(countsIn(await told(browser)).slice(1), [0, 0]);
    const [whole, [x, y]] = [await pitchOf(browser), await browser.ask("camplot.state.comparison.differing.map(({ box }) => [box.left, Math.round((box.low + box.high) / 2)])[0]")];
    // (a track covers its right edge)
    await browser.ask(`camplot.view.fit({ left: ${x} - 200, right: ${x} + 200, low: ${y} - 200, high: ${y} + 200 })`);
    await compared(browser);
    const near = await pitchOf(browser);
    assert.ok(near < whole / 1000, `${near} ${whole}`);
    const [both, then, now] = countsIn(await told(browser));
    assert.ok(both > 0 && then > 0 && now === 0, `${both} ${then} ${now}`);
    assert.match(await told(browser), new RegExp(`pixels, ${near.toLocaleString("en")} nm each, of the layers and the part that are in view`));
    // And back, by keys, where it is again the same.
    await browser.key("0");
    await idle(browser);
    await compared(browser);
    assert.deepEqual(countsIn(await told(browser)).slice(1), [0, 0]);
    assert.equal(await browser.ask("camplot.steps.done.length + camplot.steps.undone.length"), 1);
    await browser.key("Escape");
    assert.equal(await browser.ask("camplot.state.comparison"), null);
    assert.equal(await written(browser, "top"), before);
    assert.deepEqual(browser.complaints(), []);
  });

  test("is painted where the view is, and what was not compared yet is not shown as the same", async () => {
    const browser = await openPage();
    await give(browser, [{ name: "a.gtl", bytes: gerber("X0Y0D03*", "X60000000Y0D03*") }]);
    await browser.ask("camplot.view.fit({ left: -2000000, right: 2000000, low: -2000000, high: 2000000 })");
    await settle(browser);
    await run(browser, "delete top 1");
    await browser.ask("camplot.compare(1)");
    await compared(browser);
    assert.deepEqual(countsIn(await told(browser))[1], 0);
    await browser.ask("camplot.view.fit({ left: 58000000, right: 62000000, low: -2000000, high: 2000000 })");
    await compared(browser);
    const [both, then, now] = countsIn(await told(browser)), [red, green, blue] = await colourAt(browser, 60000000, 0);
    assert.ok(both === 0 && then > 20000 && now === 0, `${both} ${then} ${now}`);
    assert.ok(red > green && green > blue && red > 150, `${red} ${green} ${blue}`);
    assert.deepEqual(browser.complaints(), []);
  });

  test("follows a view that went elsewhere and came back while it was made", async () => {
    const browser = await openPage();
    await give(browser, [{ name: "a.gtl", bytes: gerber("X0Y0D03*", "X60000000Y0D03*") }]);
    const at = (x) => browser.ask(`camplot.view.fit({ left: ${x} - 2000000, right: ${x} + 2000000, low: -2000000, high: 2000000 })`);
    await at(0);
    await settle(browser);
    await run(browser, "delete top 1");
    await browser.ask("camplot.compare(1)");
    await compared(browser);
    // The worker is late: it compares the view that it has by then.
    await browser.ask(`{
      const { link } = camplot.machine, send = link.send, held = [];
      link.send = (message, ...rest) => message.kind === "compareView" && held ? held.push(message) : send.call(link, message, ...rest);
      globalThis.letGo = () => { link.send = send; for (const message of held) link.send(message); };
      globalThis.isHeld = () => held.length > 0;
    }`);
    await at(30000000);
    await settle(browser);
    await browser.wait("isHeld()");
    await at(60000000);
    await settle(browser);
    await browser.ask("letGo()");
    await browser.wait("camplot.state.comparison.window === camplot.view.window()");
    await at(30000000);
    await compared(browser);
    assert.deepEqual(browser.complaints(), []);
  });
});

suite("a comparison of two layers", () => {
  test("is that of a window around both, and of each view with smaller pixels", async () => {
    const browser = await openPage();
    await give(browser, [{ name: "a.gtl", bytes: gerber("X0Y0D03*", "X90000000Y0D03*") }, { name: "b.gbl", bytes: gerber("X0Y0D03*", "X90000100Y0D03*") }]);
    await settle(browser);
    await browser.ask("camplot.compareChosen(['top', 'bottom'])");
    await settle(browser);
    assert.match(await told(browser), /their texts differ/);
    assert.ok(!/in view/.test(await told(browser)));
    // A view that is asked for changes nothing of the state.
    await browser.ask("(Object.freeze(camplot.state.comparison.layers), camplot.view.renew())");
    await settle(browser);
    assert.deepEqual(await browser.ask("camplot.state.comparison.layers.map(({ name }) => name)"), ["compared both", "compared first", "compared second"]);
    const edge = 90500000;
    await browser.ask(`camplot.view.fit({ left: ${edge} - 1000, right: ${edge} + 1000, low: -1000, high: 1000 })`);
    await compared(browser);
    const [, view] = /in view, at (.*)$/.exec(await told(browser)) ?? ["", ""], [both, first, second] = countsIn(view);
    assert.ok(both > 0 && first === 0 && second > 0, view);
    const [red, green, blue] = await colourAt(browser, edge + 50, 0);
    assert.ok(blue > red && green > red, `${red} ${green} ${blue}`);
    // The whole again: its own pictures.
    await browser.key("0");
    await idle(browser);
    await settle(browser);
    assert.ok(!/in view/.test(await told(browser)));
    assert.equal(await browser.ask("camplot.state.comparison.sheets"), null);
    assert.deepEqual(browser.complaints(), []);
  });
});
