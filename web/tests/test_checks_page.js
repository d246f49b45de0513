// The check of nets and rules in the page, as a person works: rules are chosen, findings clicked, accepted and taken back, a check is
// stopped, and what an edit touched is checked again.

import assert from "node:assert/strict";
import { existsSync, mkdirSync, mkdtempSync, rmSync } from "node:fs";
import { join } from "node:path";
import { tmpdir } from "node:os";
import { box, draw, drill, flash, gerber, net, write as writeFiles } from "../../tools/tests/small_boards.js";
import { afterwards, suite, test } from "../../tools/tests/harness.js";
import { middleOf, press } from "./hands.js";
import { nets } from "../../tools/tests/support_nets.js";
import { give, kicad, onPage, openPage, run, savedFile, settle, text, CTRL, EXAMPLES, program } from "./support.js";
import { reload, write } from "./looking.js";
import { unzipped } from "./saving.js";

// Where pictures of the page go, to be looked at; none where this is not set.
const SHOTS = process.env.NETS_SHOTS ?? null;

async function shot(browser, name) {
  if (!SHOTS) return;
  if (!existsSync(SHOTS)) mkdirSync(SHOTS, { recursive: true });
  await settle(browser);
  await browser.screenshot(join(SHOTS, `${name}.png`));
}

// Two nets whose tracks are 0.1 mm apart, a track of 0.12 mm, a hole off its pad's middle, ink on a pad, and mask with its openings.
const BOARD = {
  "t.gbr": gerber("Copper,L1,Top", ["C,1.6", "C,0.3", "C,0.12"], net("A", flash(10, [3, 3]), draw(11, [3, 3], [12, 3]), flash(10, [12, 3])),
    net("B", flash(10, [3, 6]), draw(11, [3, 6], [6, 3.4], [10, 3.4])), net("C", flash(10, [14, 8], [6, 8]), draw(12, [14, 8], [6, 8]))),
  "b.gbr": gerber("Copper,L2,Bot", ["C,1.6"], net("A", flash(10, [3, 3], [12, 3])), net("B", flash(10, [3, 6]))),
  "m.gbr": gerber("Soldermask,Top", ["C,1.7"], flash(10, [3, 3], [12, 3], [3, 6], [14, 8], [6, 8])),
  "s.gbr": gerber("Legend,Top", ["C,0.15"], draw(10, [14, 8.5], [16, 8.5])),
  "o.gbr": gerber("Profile,NP", ["C,0.1"], draw(10, ...box(0, 0, 20, 10), [0, 0])),
  "h.drl": drill("Plated,1,2,PTH", [{ diameter: 0.8, hits: [[3.3, 3], [3, 6], [12, 3]] }]),
};
const HOUSE = "ring 0.15\ngap 0.15\nwidth 0.15\nhole-hole 0.25\nmask-web 0.1\nsilk-bare 0.1\n";
const filesOf = (files) => Object.entries(files).map(([name, words]) => ({ name, bytes: Buffer.from(words) }));

async function withBoard(files = BOARD, size = { width: 1440, height: 900 }) {
  const browser = await openPage(size);
  await give(browser, filesOf(files), true);
  await settle(browser);
  return browser;
}

const findings = (browser) => browser.ask("camplot.state.nets.findings && JSON.stringify(camplot.state.nets.findings.findings.map(({ kind, value, kept, measure }) => ({ kind, value, kept, measure })))")
  .then((words) => JSON.parse(words));
const countsOf = (list) => list.reduce((counts, { kind }) => ({ ...counts, [kind]: (counts[kind] ?? 0) + 1 }), {});
// Which rules were checked again, by name.
const again = (browser) => browser.ask("[...camplot.state.nets.findings.again].sort()");
const titles = (browser) => browser.ask("[...document.querySelectorAll('#nets-findings summary')].map(({ textContent }) => textContent)");

async function checked(browser) {
  await press(browser, "#nets-check");
  await browser.wait("camplot.state.nets.findings !== null && !camplot.state.nets.isBefore && camplot.nets.checks.checking === null");
}

// Chooses a file of rules by its keys: the so manieth of the list.
async function chooseRules(browser, number) {
  await browser.ask("document.getElementById('checks-rules').focus()");
  for (let at = 0; at < number; at++) await browser.key("ArrowDown");
}

async function withHouse(files = BOARD) {
  const browser = await withBoard(files);
  await give(browser, [{ name: "house", bytes: Buffer.from(HOUSE) }], true);
  await checked(browser);
  return browser;
}

const rowOf = (kind) => `#nets-findings details[data-kind="${kind}"] .finding`;
const pixelIs = (browser, [x, y], ink) => browser.ask(`(() => { const at = camplot.view.placeOf(${x}, ${y}), canvas = camplot.view.canvas;
  const wanted = getComputedStyle(canvas).getPropertyValue("${ink}").trim(), probe = document.createElement("canvas").getContext("2d");
  probe.fillStyle = wanted; probe.fillRect(0, 0, 1, 1);
  const one = [...probe.getImageData(0, 0, 1, 1).data].slice(0, 3), found = [...canvas.getContext("2d").getImageData(Math.round(at.x) - 1, Math.round(at.y) - 1, 3, 3).data];
  return one.every((value, part) => [0, 1, 2, 3, 4, 5, 6, 7, 8].some((pixel) => Math.abs(found[4 * pixel + part] - value) < 24)); })()`);

suite("the check in the page", () => {
  test("lists nets and rules by kind, the worst first, and a click leads to the place with its measure on the board", async () => {
    const browser = await withHouse();
    assert.deepEqual(await titles(browser), ["Annular ring, less than 0.150 mm: 2", "Copper to copper, less than 0.150 mm: 1", "Thin copper, less than 0.150 mm: 1",
      "Ink on bare copper, less than 0.100 mm: 1"]);
    assert.match(await text(browser, "nets-findings"), /^0 opens, 0 shorts, 0 points without copper, 0 pieces of copper without a point; 4 rules of 6 broken at 5 places, 1 kept/);
    assert.match(await text(browser, "nets-findings"), /not checked: mask web on bottom: no file shows its solder mask/);
    const list = await findings(browser), gap = list.find(({ kind }) => kind === "gap");
    assert.ok(Math.abs(gap.value - 100000) <= 25400 * Math.SQRT2 && list.every(({ kind, measure }) => measure !== null || kind === "short"));
    await press(browser, `${rowOf("gap")} button`);
    await settle(browser);
    const [one, other] = gap.measure, middle = [(one.x + other.x) / 2, (one.y + other.y) / 2], [x, y] = await onPage(browser, ...middle);
    const stage = JSON.parse(await browser.ask("JSON.stringify(document.getElementById('stage').getBoundingClientRect())"));
    assert.ok(x > stage.left && x < stage.right && y > stage.top && y < stage.bottom, `${x} ${y}`);
    assert.ok(await pixelIs(browser, middle, "--ink-new"), "no line is drawn");
    assert.equal(await browser.ask(`document.querySelector('${rowOf("gap")} button').getAttribute("aria-pressed")`), "true");
    await shot(browser, "checked-dark");
    await browser.key("l");
    await shot(browser, "checked-light");
    assert.deepEqual(browser.complaints(), []);
  });

  test("finds what tools/nets finds at the same pitch, under the same rules", async () => {
    program();
    const room = mkdtempSync(join(tmpdir(), "camplot-checks-"));
    afterwards(() => rmSync(room, { recursive: true, force: true }));
    for (const [folder, files] of [[room, filesOf(BOARD)], [join(EXAMPLES, "kicad"), kicad()]]) {
      if (folder === room) writeFiles(room, BOARD);
      const browser = await openPage({ width: 1440, height: 900 });
      await give(browser, files);
      await chooseRules(browser, 1);
      await browser.ask("(() => { const choice = document.getElementById('nets-pitch'); choice.value = '10000'; choice.onchange(); })()");
      await checked(browser);
      const told = JSON.parse(nets([folder, "--rules", "docs/rules", "--pitch", "10um", "--json"], folder === room ? 1 : undefined)), own = await findings(browser);
      const ofTool = told.rules.map(({ rule, value, layer, nets: names }) => `${rule} ${value} ${layer} ${names.join(",")}`).sort();
      const mm = (nm) => (nm / 1e6).toFixed(3);
      assert.deepEqual(countsOf(own), told.rules.reduce((counts, { rule }) => ({ ...counts, [rule]: (counts[rule] ?? 0) + 1 }), {}), folder);
      assert.deepEqual(own.map(({ value }) => mm(value)).sort(), told.rules.map(({ value }) => Number(value).toFixed(3)).sort(), ofTool.join("\n"));
      await browser.close();
    }
  });

  test("a finding is accepted with a reason and a name, is kept and saved so, and taken back", async () => {
    const browser = await withHouse();
    await press(browser, `${rowOf("ring")} .only`);
    await browser.wait("document.getElementById('accept').open");
    await browser.type("drilled by hand");
    await browser.key("Enter");
    // Without a name it is not accepted.
    assert.match(await browser.ask("document.querySelector('#accept .fault').textContent"), /name of who accepts it/);
    await press(browser, "#accept-by");
    await browser.type("Ada Byron");
    await browser.key("Enter");
    await browser.wait("!document.getElementById('accept').open");
    assert.deepEqual((await titles(browser)).slice(0, 1), ["Annular ring, less than 0.150 mm: 1"]);
    assert.ok((await titles(browser)).includes("Accepted: 1"));
    // It is folded, and has who accepted it and why.
    assert.equal(await browser.ask("document.querySelector('[data-kind=accepted]').open"), false);
    await press(browser, "[data-kind=accepted] summary");
    await browser.wait("document.querySelector('[data-kind=accepted] .finding') !== null");
    assert.match(await browser.ask("document.querySelector('[data-kind=accepted]').textContent"), /drilled by hand \(Ada Byron\)/);
    await shot(browser, "accepted");
    await press(browser, "[data-act=save]");
    const { name, bytes } = await savedFile(browser), files = unzipped(bytes);
    assert.equal(name, "board.zip");
    const line = JSON.parse(files.get("nets.accepted").toString());
    assert.deepEqual([line.kind, line.reason, line.by], ["ring", "drilled by hand", "Ada Byron"]);
    assert.match(await text(browser, "told"), /^6 layers and 1 accepted finding saved in board\.zip/);
    // The page opened again has it, and the limits.
    await browser.ask("camplot.idle()");
    await reload(browser);
    await browser.ask("camplot.idle()");
    await checked(browser);
    assert.ok((await titles(browser)).includes("Accepted: 1"));
    await press(browser, "[data-kind=accepted] summary");
    await browser.wait("document.querySelector('[data-kind=accepted] .only') !== null");
    await press(browser, "[data-kind=accepted] .only");
    await browser.wait("camplot.state.checks.accepted.length === 0");
    assert.deepEqual((await titles(browser)).slice(0, 1), ["Annular ring, less than 0.150 mm: 2"]);
    assert.deepEqual(browser.complaints(), []);
  });

  test("a file of accepted findings that is dropped is taken, also from the saved ZIP file", async () => {
    const browser = await withHouse(), list = await findings(browser), { kept } = list.find(({ kind }) => kind === "gap");
    await give(browser, [{ name: "nets.accepted", bytes: Buffer.from(`${JSON.stringify({ ...kept, reason: "one potential", by: "Bob" })}\n${
      JSON.stringify({ ...kept, x: 1, reason: "long gone" })}\n`) }], true);
    assert.match(await text(browser, "told"), /2 accepted findings taken from nets\.accepted/);
    assert.ok((await titles(browser)).includes("Accepted: 1") && (await titles(browser)).includes("Accepted and gone: 1"));
    await press(browser, "[data-act=save]");
    const { bytes } = await savedFile(browser), other = await openPage();
    await give(other, [{ name: "board.zip", bytes }]);
    await other.wait("camplot.state.checks.accepted.length === 2");
    assert.equal(await other.ask("camplot.state.layers.length"), 6);
    assert.deepEqual(browser.complaints(), []);
  });

  test("after an edit what it touched is checked again", async () => {
    const browser = await withHouse();
    assert.deepEqual(await again(browser), ["gap", "hole-hole", "mask-web", "ring", "silk-bare", "width"]);
    await run(browser, "delete top-silk 0");
    await browser.wait("!camplot.state.nets.isBefore && camplot.state.nets.findings.again.length < 6");
    assert.deepEqual([await again(browser), countsOf(await findings(browser))], [["silk-bare"], { ring: 2, gap: 1, width: 1 }]);
    await browser.ask("document.getElementById('marks').focus()");
    await browser.key("z", CTRL);
    await browser.wait("camplot.state.nets.findings.findings.length === 5");
    // An edit of copper: all but the rules of holes and of mask.
    await run(browser, "move top 4 0 1000000");
    await browser.wait("!camplot.state.nets.isBefore && camplot.state.nets.findings.again.length > 1");
    assert.deepEqual(await again(browser), ["gap", "ring", "silk-bare", "width"]);
    assert.deepEqual(browser.complaints(), []);
  });

  test("says that what it shows is from before an edit where a check takes long", async () => {
    const browser = await withHouse();
    await browser.ask("camplot.nets.set({ findings: { ...camplot.state.nets.findings, ms: 60000 } })");
    await run(browser, "delete top-silk 0");
    await browser.wait("camplot.state.nets.isBefore");
    assert.match(await text(browser, "checks-said"), /^From before the last edit: check again\. /);
    assert.equal(await text(browser, "nets-check"), "check again");
    await checked(browser);
    assert.match(await text(browser, "checks-said"), /^At 25\.4 µm: gaps under that look closed\.$/);
  });

  test("limits are typed, and what is listed says if they are others", async () => {
    const browser = await withHouse();
    await press(browser, "#checks summary");
    await write(browser, "[data-rule=gap]", "3mil");
    await browser.key("Enter");
    await browser.wait("camplot.state.checks.name === 'own'");
    assert.match(await text(browser, "checks-said"), /^Under the limits of before: check again\. /);
    await checked(browser);
    assert.deepEqual(countsOf(await findings(browser)).gap, undefined);
    assert.deepEqual(await again(browser), ["gap"]);
    await write(browser, "[data-rule=gap]", "wide");
    await browser.key("Enter");
    assert.match(await text(browser, "told"), /gap needs a length/);
    assert.equal(await browser.ask("document.querySelector('[data-rule=gap]').value"), "0.0762");
    await chooseRules(browser, 1);
    assert.ok((await browser.ask("camplot.state.checks.limits")).length > 0);
    await shot(browser, "limits");
    assert.deepEqual(browser.complaints(), []);
  });

  test("a file of rules that is wrong is refused with its line, and the limits stay", async () => {
    const browser = await withHouse();
    await give(browser, [{ name: "broken", bytes: Buffer.from("ring 0.1\nrind 2\n") }], true);
    assert.match(await text(browser, "told"), /^broken is refused: line 2: rind is none of/);
    assert.equal(await browser.ask("camplot.state.checks.name"), "house");
  });

  test("a check that takes long tells how far it is, and stops at a press", async () => {
    const rows = Array.from({ length: 240 }, (_, row) => draw(10, [1, 1 + 0.2 * row], [55, 6 + 0.2 * row]));
    const browser = await withBoard({ "t.gbr": gerber("Copper,L1,Top", ["C,0.12"], ...rows), "b.gbr": gerber("Copper,L2,Bot", ["C,0.12"], ...rows) });
    await give(browser, [{ name: "house", bytes: Buffer.from("width 0.2\ngap 0.2\n") }], true);
    await browser.ask("(() => { const choice = document.getElementById('nets-pitch'); choice.value = '10000'; choice.onchange(); })()");
    await press(browser, "#nets-check");
    await browser.wait("/copper to copper|thin copper/.test(document.getElementById('checks-words').textContent)");
    await shot(browser, "checking");
    assert.ok(await middleOf(browser, "#checks-stop"));
    await press(browser, "#checks-stop");
    await browser.wait("camplot.nets.checks.checking === null");
    assert.equal(await text(browser, "told"), "The check was stopped.");
    assert.equal(await browser.ask("camplot.state.nets.findings"), null);
    assert.equal(await browser.ask("document.getElementById('checks-under').hidden"), true);
    assert.deepEqual(browser.complaints(), []);
  });
});
