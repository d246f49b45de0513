// The nets in the page: a net that is lit, what edits join and cut, and findings, as a person sees them.

import assert from "node:assert/strict";
import { existsSync, mkdirSync, readFileSync } from "node:fs";
import { join } from "node:path";
import { CTRL, EXAMPLES, clickAt, filesOf, give, onPage, openPage, run, settle, text } from "./support.js";
import { suite, test } from "../../tools/tests/harness.js";

const FOUR = join(EXAMPLES, "four_layers");
const SHORT = "insert top 0 draw 16 106000000 -85080000 106000000 -87620000 r0 dark";
// Where pictures of the page go, to be looked at; none where this is not set.
const SHOTS = process.env.NETS_SHOTS ?? null;

async function shot(browser, name) {
  if (!SHOTS) return;
  if (!existsSync(SHOTS)) mkdirSync(SHOTS, { recursive: true });
  await settle(browser);
  await browser.screenshot(join(SHOTS, `${name}.png`));
}

const click = (browser, id) => browser.ask(`(() => { const box = document.getElementById("${id}"); box.scrollIntoView();
  const { left, top, width, height } = box.getBoundingClientRect(); return [left + width / 2, top + height / 2]; })()`)
  .then(([x, y]) => browser.click(x, y));

async function withNets(isOn = true) {
  const browser = await openPage({ width: 1500, height: 950 });
  await give(browser, filesOf(FOUR));
  await settle(browser);
  if (isOn) {
    await click(browser, "nets-on");
    await browser.wait("camplot.state.nets.about?.count > 0");
  }
  return browser;
}

const words = (browser) => text(browser, "nets-change");

suite("nets", () => {
  test("nothing is found before it is switched on", async () => {
    const browser = await withNets(false);
    assert.equal(await browser.ask("camplot.nets.follow.link"), null);
    assert.equal(await browser.ask("document.getElementById('nets-body').hidden"), true);
  });

  test("a click of the tool lights a net on all layers", async () => {
    const browser = await withNets(false);
    await browser.key("n");
    await clickAt(browser, 104000000, -82540000);
    await browser.wait("camplot.state.nets.lit !== null");
    const lit = JSON.parse(await browser.ask("JSON.stringify((({ runs, ...rest }) => ({ layers: runs.filter(({ length }) => length).length, ...rest }))(camplot.state.nets.lit))"));
    assert.deepEqual([lit.names, lit.holes, lit.layers], [["GND"], 4, 6]);
    for (const pin of ["J1-2", "U1-4", "D1-1", "C1-2"]) assert.ok(lit.pins.includes(pin), pin);
    assert.match(await text(browser, "nets-lit"), /^GND[\d.]+ mm² of copper \(top copper .*inner copper 1 .*bottom copper .*, 4 holes/);
    assert.match(await text(browser, "nets-count"), /^9 nets$/);
    await shot(browser, "lit");
    // What lies next to it.
    await click(browser, "nets-gap");
    await browser.ask("document.getElementById('nets-gap').select()");
    await browser.type("0.31");
    await browser.key("Enter");
    await browser.wait("camplot.state.nets.near !== null");
    assert.ok((await text(browser, "nets-near")).includes("VCC"));
    await clickAt(browser, 101500000, -70500000);
    await browser.wait("camplot.state.nets.lit === null");
    assert.deepEqual(browser.complaints(), []);
  });

  test("a click where no copper is open says so, and nothing fails", async () => {
    const browser = await openPage();
    await browser.key("n");
    await clickAt(browser, 0, 0);
    await browser.wait("camplot.state.nets.about !== null");
    await browser.ask("camplot.idle()");
    assert.equal(await text(browser, "nets-said"), "No copper is open.");
    assert.equal(await text(browser, "told"), "There is no copper of a shown layer.");
    assert.deepEqual(await browser.ask("camplot.state.faults"), []);
    assert.deepEqual(browser.complaints(), []);
  });

  test("an edit that joins and its undo", async () => {
    const browser = await withNets();
    assert.deepEqual(await run(browser, SHORT), ["ok"]);
    await browser.wait("camplot.state.nets.change?.kind === 'joins'");
    assert.match(await words(browser), /^The last edit joins (\/SDA and \/SCL|\/SCL and \/SDA) \(9 to 8 nets\)/);
    const place = JSON.parse(await browser.ask("JSON.stringify(camplot.state.nets.change.places[0].place)"));
    assert.ok(Math.abs(place.x - 106000000) <= 2 * 25400 && place.y < -85000000 && place.y > -87700000, JSON.stringify(place));
    assert.equal(await browser.ask("document.querySelector('#history .nets-mark').textContent"), "joins");
    await shot(browser, "joined");
    await browser.key("z", CTRL);
    await browser.wait("camplot.state.nets.change?.kind === 'cuts'");
    assert.match(await words(browser), /^The last edit cuts .*in 2.* \(8 to 9 nets\)/);
    await browser.key("y", CTRL);
    await browser.wait("camplot.state.nets.change?.kind === 'joins'");
    // An edit that changes no net has no mark.
    await run(browser, "move top-mask 0 0 0", "move top 0 10000 0");
    await browser.wait("camplot.state.nets.change === null");
    assert.equal(await browser.ask("document.querySelectorAll('#history .nets-mark').length"), 1);
    assert.deepEqual(browser.complaints(), []);
  });

  test("a netlist, and the findings a click away from their places", async () => {
    const browser = await withNets();
    await run(browser, SHORT, "delete plated 6");
    await give(browser, [{ name: "thermometer.d356", bytes: readFileSync(join(FOUR, "thermometer.d356")) }], true);
    await browser.wait("camplot.state.nets.findings !== null");
    const told = await text(browser, "nets-findings");
    assert.match(told, /^1 open, 1 short, 0 points without copper, 0 pieces/);
    assert.match(told, /open: \/SCL is in \d parts/);
    assert.match(told, /\/SCL and \/SDA touch at|\/SDA and \/SCL touch at/);
    const index = await browser.ask("[...document.querySelectorAll('#nets-findings button')].findIndex(({ textContent }) => textContent.startsWith('short'))");
    await browser.ask(`document.querySelectorAll('#nets-findings button')[${index}].scrollIntoView()`);
    const [x, y] = await browser.ask(`(() => { const { left, top, width } = document.querySelectorAll('#nets-findings button')[${index}].getBoundingClientRect();
      return [left + width / 2, top + 8]; })()`);
    await browser.click(x, y);
    await settle(browser);
    const [px, py] = await onPage(browser, 106000000, -86350000);
    assert.ok(px > 250 && px < 1250 && py > 50 && py < 800, `${px} ${py}`);
    await shot(browser, "short");
    await give(browser, [{ name: "broken.d356", bytes: Buffer.from("P  UNITS CUST 0\n317GND              VIA   -\n999\n") }], true);
    await browser.wait("camplot.state.nets.netlist?.refusals.length > 0");
    assert.match(await text(browser, "nets-findings"), /broken.d356 is refusedline 2: the line has \d+ characters/);
    assert.deepEqual(browser.complaints(), []);
  });

  test("take for copper and for plated holes what the layers show, by their files or by a hand", async () => {
    const browser = await withNets(), show = (name, shows) => browser.ask(`camplot.machine.send({ kind: "function", name: "${name}", shows: "${shows}" })`);
    const [before, stack] = [await browser.ask("camplot.state.nets.about.count"), () => text(browser, "nets-stack")];
    assert.match(await stack(), /^Copper from the top: top copper, inner copper 1, inner copper 2, bottom copper\. Plated holes: plated holes, top copper to bottom copper/);
    await show("plated", "nonplated");
    await browser.wait(`camplot.state.nets.about?.count > ${before}`);
    assert.match(await stack(), /Plated holes: plated holes \(thermometer-front-in1\.drl\), top copper to inner copper 1 \(copper 1 to 2, by its attribute\)\.$/);
    await show("bottom", "drawing");
    await browser.wait("camplot.state.nets.about?.copper === 3");
    assert.match(await stack(), /^Copper from the top: top copper, inner copper 1, inner copper 2\. /);
    await browser.key("z", CTRL);
    await browser.wait("camplot.state.nets.about?.copper === 4");
    await show("plated", "plated");
    await browser.wait(`camplot.state.nets.about?.count === ${before}`);
    assert.deepEqual(browser.complaints(), []);
  });

  test("are found in layers that a hand made copper, where no file says it", async () => {
    const browser = await openPage();
    await give(browser, ["one", "two"].map((name) => ({ name: `${name}.txt`, bytes: Buffer.from(`%FSLAX46Y46*%\n%MOMM*%\n%ADD10C,1*%\nD10*\nX0Y0D03*\nM02*\n`) })), true);
    for (const [at, shows] of ["top", "bottom"].entries()) {
      await browser.ask(`camplot.machine.send({ kind: "function", name: camplot.state.layers.find(({ file }) => file === "${["one", "two"][at]}.txt").name, shows: "${shows}" })`);
    }
    await browser.ask("camplot.idle()");
    await browser.ask("document.getElementById('nets-on').click()");
    await browser.wait("camplot.state.nets.about !== null");
    assert.deepEqual([await browser.ask("camplot.state.nets.about.copper"), await browser.ask("camplot.state.nets.about.count")], [2, 2]);
    assert.match(await text(browser, "nets-stack"), /^Copper from the top: top copper, bottom copper\. No plated holes\.$/);
  });

  test("tell the pitch that they use where it is not the one chosen, and the limit with what they found", async () => {
    const browser = await withNets();
    await browser.ask("(() => { const choice = document.getElementById('nets-pitch'); choice.value = '10000'; choice.onchange(); })()");
    await browser.wait("camplot.state.nets.about?.pitch > 0 && camplot.state.nets.pitch === 10000");
    const used = await browser.ask("camplot.state.nets.about.pitch");
    assert.equal(await text(browser, "nets-used"), used === 10000 ? "" : `${Number((used / 1000).toFixed(1))} µm used`);
    await browser.ask("(() => { const choice = document.getElementById('nets-pitch'); choice.value = '25400'; choice.onchange(); })()");
    await browser.wait("camplot.state.nets.about?.pitch === 25400");
    await run(browser, SHORT);
    await browser.wait("camplot.state.nets.change?.kind === 'joins'");
    assert.match(await words(browser), /, at 25\.4 µm: gaps under 25\.4 µm look closed\. /);
    await browser.ask("document.getElementById('nets-check').click()");
    await browser.wait("camplot.state.nets.findings !== null");
    const rows = await browser.ask("[...document.querySelectorAll('#nets-findings button')].map(({ textContent }) => textContent.split('\\n')[0])");
    assert.ok(rows.some((row) => /^short.*, at 25\.4 µm: gaps under 25\.4 µm look closed$/.test(row)), rows.join("\n"));
  });
});
