// What the page says of two that it compared is what it compared.

import assert from "node:assert/strict";
import { join } from "node:path";
import { EXAMPLES, filesOf, gerber, settle } from "./support.js";
import { onDisk, openFiles, press, toBoard, typeLine } from "./hands.js";
import { rest, seen } from "./seen.js";
import { suite, test } from "../../tools/tests/harness.js";
import { tabs } from "./tab.js";

const open = tabs();
const KICAD = join(EXAMPLES, "kicad");
// A pad of the example's top layer, by its place.
const PAD = 6;

async function withFiles(paths) {
  const tab = await open();
  await openFiles(tab, paths);
  await tab.wait(`camplot.state.layers.length === ${paths.length}`);
  await rest(tab);
  await settle(tab);
  return tab;
}

const withBoard = () => withFiles(filesOf(KICAD).map(({ name }) => join(KICAD, name)));

async function type(tab, ...lines) {
  for (const line of lines) await typeLine(tab, line);
  await rest(tab);
  await toBoard(tab);
}

// What is said of the document and of what it was before the last `back` steps.
async function comparedWith(tab, back) {
  const steps = (await seen(tab)).steps.length;
  await press(tab, "#history li button", steps - back);
  await tab.wait("!document.getElementById('compared').hidden", 60);
  await rest(tab);
  return (await seen(tab)).compared;
}

// What is said of two, by what they are called in the choice for them.
async function comparedTwo(tab, first, second) {
  await tab.ask("document.getElementById('two-panel').open = true");
  for (const [id, label] of [["first", first], ["second", second]]) {
    assert.ok(await tab.ask(`(() => {
      const choice = document.getElementById("${id}");
      const found = [...choice.options].find((option) => option.textContent === ${JSON.stringify(label)});
      if (found) choice.value = found.value;
      choice.dispatchEvent(new Event("change", { bubbles: true }));
      return found !== undefined;
    })()`), label);
  }
  await press(tab, "#compare-two");
  await tab.wait("!document.getElementById('compared').hidden", 60);
  await rest(tab);
  return (await seen(tab)).compared;
}

const SAME = /the same/;

suite("compared with an earlier step", () => {
  test("a mask opening that was deleted while masks are hidden", async () => {
    const tab = await withBoard();
    assert.equal((await seen(tab)).layers.find(({ name }) => name === "top-mask").isShown, false);
    await type(tab, "delete top-mask 0");
    const said = await comparedWith(tab, 1);
    assert.doesNotMatch(said, SAME);
    assert.match(said, /top (solder )?mask/);
  });

  test("a pad outside the view", async () => {
    const tab = await withBoard();
    await tab.ask("camplot.view.fit({ left: 150000000, low: -60000000, right: 151000000, high: -59000000 })");
    await settle(tab);
    await type(tab, `move top ${PAD} 1000000 0`);
    const said = await comparedWith(tab, 1);
    assert.doesNotMatch(said, SAME);
    assert.match(said, /top copper/);
  });

  test("a pad that moved by less than a pixel", async () => {
    const tab = await withBoard();
    await type(tab, `move top ${PAD} 5000 0`);
    assert.doesNotMatch(await comparedWith(tab, 1), SAME);
  });

  test("another place in the list, with the same picture", async () => {
    const tab = await withFiles(onDisk({ "a.gtl": gerber("X0Y0D03*", "X5000000Y0D03*") }));
    await type(tab, "reorder top 0 1");
    const said = await comparedWith(tab, 1);
    assert.ok(!SAME.test(said) || /differ|pixel|mm|µm|nm/.test(said), said);
    assert.doesNotMatch(said, /bit for bit/);
  });

  test("an attribute alone", async () => {
    const tab = await withFiles(onDisk({ "a.gtl": gerber("X0Y0D03*") }));
    await type(tab, "setattr top .Part Single");
    assert.doesNotMatch(await comparedWith(tab, 1), /bit for bit/);
  });

  test("what is the same, and it leaves the document as it was", async () => {
    const tab = await withBoard();
    await type(tab, `move top ${PAD} 1000000 0`, `move top ${PAD} -1000000 0`);
    assert.match(await comparedWith(tab, 2), SAME);
    await tab.key("Escape");
    await rest(tab);
    assert.equal((await seen(tab)).compared, null);
    assert.match((await seen(tab)).history, /2 to undo, 0 to redo/);
    assert.doesNotMatch(await comparedWith(tab, 1), SAME);
  });

  test("what differs is named, and leads there", async () => {
    const tab = await withBoard();
    await type(tab, "delete top-mask 0");
    await comparedWith(tab, 1);
    const at = await tab.ask(`[...document.querySelectorAll("#compared button")].findIndex((button) => /mask/.test(button.textContent))`);
    const selector = at < 0 ? "#compared-where" : "#compared button";
    const before = await tab.ask("JSON.stringify([camplot.view.left, camplot.view.top, camplot.view.pitch])");
    await press(tab, selector, Math.max(0, at));
    await rest(tab);
    assert.notEqual(await tab.ask("JSON.stringify([camplot.view.left, camplot.view.top, camplot.view.pitch])"), before);
  });
});

suite("two layers", () => {
  const two = (x) => onDisk({ "a.gtl": gerber("X0Y0D03*", "X40000000Y0D03*"), "b.gbl": gerber("X0Y0D03*", `X${x}Y0D03*`) });

  test("that differ by less than a pixel", async () => {
    const tab = await withFiles(two(40005000));
    assert.doesNotMatch(await comparedTwo(tab, "top copper", "bottom copper"), SAME);
  });

  test("that differ outside the view", async () => {
    const tab = await withFiles(two(45000000));
    await tab.ask("camplot.view.fit({ left: -1000000, low: -1000000, right: 1000000, high: 1000000 })");
    await settle(tab);
    assert.doesNotMatch(await comparedTwo(tab, "top copper", "bottom copper"), SAME);
  });

  test("that are the same", async () => {
    const tab = await withFiles(two(40000000));
    assert.match(await comparedTwo(tab, "top copper", "bottom copper"), SAME);
  });
});
