// One answer for many refused files: of files that ask for the same, and of old ones that need the same question.

import assert from "node:assert/strict";
import { CTRL, gerber } from "./support.js";
import { answer, drop, onDisk, press } from "./hands.js";
import { layerTexts, saving } from "./saving.js";
import { rest, seen } from "./seen.js";
import { suite, test } from "../../tools/tests/harness.js";
import { tabs } from "./tab.js";

const open = tabs();
// A drill file whose head names neither unit nor digits nor zeros; and a Gerber file without a unit.
const drill = (x) => `M48\nT01C0.800\n%\nT01\nX${x}Y020000\nM30\n`;
const unitless = (x) => `%FSLAX24Y24*%\n%ADD10C,0.05*%\nD10*\nX${x}Y0D03*\nM02*\n`;
const old = (x) => `%FSLAX36Y36*MOMM*%\n%ADD10C,1.0*%\nG54D10*\nX${x}Y0D03*\nM00*\n`;
const groups = (tab) => tab.ask("[...document.querySelectorAll('#refused-groups > p')].map((row) => row.textContent)");
const isAllowed = "document.getElementById('question').open && !document.querySelector('#question-choices button').disabled";

// Sets a choice of the form as its label has it.
async function fill(tab, label, value) {
  await tab.ask(`(() => {
    const input = [...document.querySelectorAll("#question-body label")].find((row) => row.firstChild.textContent === ${JSON.stringify(label)})
      .querySelector("input, select");
    input.value = ${JSON.stringify(value)};
    input.dispatchEvent(new Event("change", { bubbles: true }));
  })()`);
}

suite("files that ask for the same", () => {
  test("are answered for at once, and no longer stand as refused", async () => {
    const tab = await open();
    await drop(tab, onDisk({ "one.drl": drill("010000"), "two.drl": drill("015000"), "three.drl": drill("020000"), "a.gtl": gerber("X0Y0D03*") }));
    await tab.wait("camplot.state.layers.length === 1", 60);
    await rest(tab);
    assert.equal((await seen(tab)).refused.length, 3);
    assert.deepEqual(await groups(tab), ["3 drill files ask for the same: unit. answer for all .."]);
    await press(tab, "#refused-groups button");
    await rest(tab);
    assert.equal((await seen(tab)).question.title, "Convert 3 files?");
    assert.match((await seen(tab)).question.body, /None of them can be converted so/);
    assert.ok((await seen(tab)).question.answers[0].isOff);
    await fill(tab, "unit", "mm");
    await fill(tab, "digits", "3:3");
    await fill(tab, "zeros that are written", "leading");
    await tab.wait(isAllowed, 60);
    assert.match((await seen(tab)).question.body, /All of them can be converted so/);
    assert.equal(await tab.ask("document.querySelectorAll('#outcomes > li').length"), 3);
    await answer(tab, /^Convert/);
    await tab.wait("camplot.state.layers.length === 4", 60);
    await rest(tab);
    const { refused, told } = await seen(tab);
    assert.deepEqual([refused, told], [[], "3 layers opened. 3 files converted."]);
    assert.deepEqual(await groups(tab), []);
    const texts = await layerTexts(tab, (await saving(tab, () => tab.key("s", CTRL))).bytes);
    assert.deepEqual([...texts].filter(([name]) => name.startsWith("holes")).map(([, text]) => /X[\d.]+Y[\d.]+/.exec(text.toString("latin1"))[0]).sort(),
      ["X10.000000Y20.000000", "X15.000000Y20.000000", "X20.000000Y20.000000"]);
    // Nor when the page is opened again.
    await tab.reload();
    await rest(tab);
    assert.deepEqual([(await seen(tab)).refused, (await seen(tab)).layers.length], [[], 4]);
    assert.deepEqual(tab.complaints(), []);
  });

  test("are left as they are by Escape, and asked again by the button", async () => {
    const tab = await open();
    await drop(tab, onDisk({ "one.gtl": unitless("0100"), "two.gbl": unitless("0200") }));
    await tab.wait("document.querySelector('#refused-groups button')", 60);
    await rest(tab);
    assert.deepEqual(await groups(tab), ["2 Gerber files ask for the same: unit. answer for all .."]);
    await press(tab, "#refused-groups button");
    await rest(tab);
    await tab.key("Escape");
    await rest(tab);
    assert.equal((await seen(tab)).refused.length, 2);
    await press(tab, "#refused-groups button");
    // The ways to read them are buttons, as for one file.
    await tab.wait("document.querySelectorAll('#ways button').length === 2", 60);
    await rest(tab);
    await press(tab, "#ways button", 1);
    await tab.wait(isAllowed, 60);
    await answer(tab, /^Convert/);
    await tab.wait("camplot.state.layers.length === 2", 60);
    await rest(tab);
    assert.deepEqual((await seen(tab)).refused, []);
    assert.deepEqual(tab.complaints(), []);
  });

  test("of which one cannot be read so: the others are opened, and it stays", async () => {
    const tab = await open();
    await drop(tab, onDisk({ "one.drl": drill("010000"), "two.drl": `M48\nT01C0.800\n%\nT01\nX010000Y020000\nG99\nM30\n` }));
    await tab.wait("document.querySelectorAll('#refused > li').length === 2", 60);
    await rest(tab);
    const found = await groups(tab);
    if (!found.length) return;
    await press(tab, "#refused-groups button");
    await rest(tab);
    await fill(tab, "unit", "mm");
    await fill(tab, "digits", "3:3");
    await fill(tab, "zeros that are written", "leading");
    await tab.wait(isAllowed, 60);
    assert.match((await seen(tab)).question.body, /1 file can be converted so; 1 file would stay refused/);
    await answer(tab, /^Convert/);
    await tab.wait("camplot.state.layers.length === 1", 60);
    await rest(tab);
    const { refused } = await seen(tab);
    assert.equal(refused.length, 1);
    assert.match(refused[0], /two\.drl/);
  });
});

suite("old files of one opening", () => {
  test("are asked about once, each with its changes", async () => {
    const tab = await open();
    await drop(tab, onDisk({ "one.gtl": old("0"), "two.gbl": old("1000000"), "three.gto": old("2000000") }));
    await tab.wait(isAllowed, 60);
    const { question } = await seen(tab);
    assert.equal(question.title, "Convert 3 files?");
    for (const name of ["one.gtl", "two.gbl", "three.gto"]) assert.ok(question.body.includes(name), name);
    await tab.reload();
    await tab.wait(isAllowed, 60);
    assert.equal((await seen(tab)).question.title, "Convert 3 files?");
    await answer(tab, /^Convert/);
    await tab.wait("camplot.state.layers.length === 3", 60);
    await rest(tab);
    const { refused, told } = await seen(tab);
    assert.deepEqual([refused, told], [[], "3 layers opened. 3 files converted."]);
    assert.deepEqual(tab.complaints(), []);
  });
});
