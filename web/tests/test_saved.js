// What the page saves is what the user has, and it says before what would be lost.

import assert from "node:assert/strict";
import { join } from "node:path";
import { CTRL, EXAMPLES, gerber } from "./support.js";
import { answer, hold, onDisk, openFiles, press, toBoard, typeLine } from "./hands.js";
import { readFileSync } from "node:fs";
import { linesNow, rest, scriptNow, seen } from "./seen.js";
import { ran, saving, unzipped } from "./saving.js";
import { suite, test } from "../../tools/tests/harness.js";
import { tabs } from "./tab.js";

const open = tabs();
const TOP = join(EXAMPLES, "kicad", "nightlight-F_Cu.gbr");

async function type(tab, ...lines) {
  for (const line of lines) await typeLine(tab, line);
  await rest(tab);
  await toBoard(tab);
}

async function withFiles(paths) {
  const tab = await open();
  await openFiles(tab, paths);
  await tab.wait(`camplot.state.layers.length === ${paths.length}`);
  await rest(tab);
  await toBoard(tab);
  return tab;
}

// The object attributes at each flash of a Gerber text: { "X Y": ".N,net .P,part,pin" }, as the format has them.
function attributesOf(text) {
  const now = new Map(), found = {};
  for (const [, extended, word] of text.matchAll(/%([^%]*)\*%|([^*%]*)\*/g)) {
    const [, verb, key, rest_ = ""] = /^(TO|TD)([^,]*)(?:,(.*))?$/s.exec(extended ?? "") ?? [];
    if (verb === "TO") now.set(key, rest_);
    else if (verb === "TD" && key) now.delete(key);
    else if (verb === "TD") now.clear();
    const at = /^\s*X(-?\d+)Y(-?\d+)D03$/.exec(word ?? "");
    if (at) found[`${Number(at[1])} ${Number(at[2])}`] = [...now].map(([name, value]) => `${name},${value}`).sort().join(" ");
  }
  return found;
}

suite("attributes of items", () => {
  test("that a saved text would drop are told before", async () => {
    const tab = await withFiles([TOP]);
    const told = await tab.ask("(({ hidden, textContent }) => hidden ? '' : textContent)(document.getElementById('dropped-panel'))");
    for (const word of ["attributes", "top", ".N", ".P"]) assert.ok(told.includes(word), `${word} in ${told}`);
  });

  test("nothing is told where there are none", async () => {
    const tab = await withFiles(onDisk({ "a.gtl": gerber("X0Y0D03*") }));
    assert.equal(await tab.ask("document.getElementById('dropped-panel').hidden"), true);
    const { bytes } = await saving(tab, () => tab.key("S", CTRL | 8));
    assert.match(bytes.toString(), /X0Y0D03\*/);
  });

  test("are saved with the layer, through its edits", async () => {
    const tab = await withFiles([TOP]), before = attributesOf(readFileSync(TOP, "latin1"));
    assert.ok(Object.values(before).some((words) => /\.N,/.test(words)));
    // The first pad moves, the second goes, and both come again; then the first moves once more.
    await type(tab, "move top 6 1000000 0", "delete top 7", "reorder top 6 2", "undo", "undo", "undo", "redo", "redo");
    const bytes = unzipped((await saving(tab, () => tab.key("s", CTRL))).bytes).get("nightlight-F_Cu.gbr");
    const after = attributesOf(bytes.toString("latin1"));
    const places = Object.keys(after);
    assert.ok(places.length > 3);
    const plain = unzipped((await saving(tab, () => tab.key("e", CTRL))).bytes);
    const script = `${plain.get("script")}write top written/own\nload again gerber written/saved\nwrite again written/again\n`;
    const { status, replies, read } = ran(new Map([...plain, ["script", script], ["written/saved", bytes]]));
    assert.equal(status, 0, replies.join("\n"));
    assert.ok(read("written/own").equals(read("written/again")), "the text with attributes is another layer");
    const unmoved = places.filter((place) => before[place] !== undefined);
    for (const place of unmoved) assert.equal(after[place], before[place], place);
    const moved = places.filter((place) => before[place] === undefined);
    assert.equal(moved.length, 1, moved.join());
    const [x, y] = moved[0].split(" ").map(Number);
    assert.equal(after[moved[0]], before[`${x - 1000000} ${y}`]);
  });
});

suite("the saved script", () => {
  test("has no two plots under one name, and ends with the texts that were saved last", async () => {
    const tab = await withFiles(onDisk({ "a.gtl": gerber("X0Y0D03*", "X5000000Y0D03*"), "b.gbl": gerber("X0Y0D03*") }));
    const plots = [];
    let texts = null;
    for (const line of ["move top 0 0 3000000", "move top 0 0 2000000"]) {
      await type(tab, line);
      plots.push((await saving(tab, async () => {
        await tab.key("p", CTRL);
        await tab.ask(`document.querySelectorAll("#question-body select").forEach((choice) => {
          if ([...choice.options].some(({ value }) => value === "pbm")) choice.value = "pbm"; })`);
        await answer(tab, /Save/);
      })).bytes);
      texts = unzipped((await saving(tab, () => tab.key("s", CTRL))).bytes);
      await rest(tab);
    }
    const files = unzipped((await saving(tab, () => tab.key("e", CTRL))).bytes), script = files.get("script").toString();
    const paths = script.split("\n").filter((line) => /^plot /.test(line)).map((line) => line.split(" ")[2]);
    assert.ok(paths.length >= 2, script);
    assert.deepEqual(paths.filter((path, at) => paths.indexOf(path) !== at), []);
    const { status, replies, read } = ran(files);
    assert.equal(status, 0, replies.join("\n"));
    const plotted = script.split("\n").filter((line) => line.startsWith("plot top ")).map((line) => read(line.split(" ")[2]));
    assert.deepEqual(plotted.map((bytes, at) => bytes.equals(plots[at])), [true, true]);
    for (const [name, file] of [["top", "a.gtl"], ["bottom", "b.gbl"]]) assert.ok(read(`written/${name}.gbr`).equals(texts.get(file)), name);
  });

  test("has what was done before it, however quickly", async () => {
    const tab = await withFiles(onDisk({ "a.gtl": gerber("X0Y0D03*") }));
    await tab.key("a", CTRL);
    await rest(tab);
    const { bytes } = await saving(tab, async () => {
      hold(tab, "ArrowUp", 10);
      await tab.key("e", CTRL);
    });
    await rest(tab);
    assert.equal(unzipped(bytes).get("script").toString(), await scriptNow(tab));
  });

  test("runs as the page says, also after more undos than the program keeps by itself", async () => {
    const tab = await withFiles(onDisk({ "a.gtl": gerber("X0Y0D03*") }));
    await tab.key("a", CTRL);
    await rest(tab);
    for (let stroke = 0; stroke < 102; stroke++) await tab.key("ArrowUp");
    await rest(tab, 240);
    await hold(tab, "z", 101, { modifiers: CTRL });
    await rest(tab, 240);
    const files = unzipped((await saving(tab, () => tab.key("e", CTRL))).bytes);
    assert.equal((await linesNow(tab)).filter((line) => line === "undo").length, 101);
    const { told } = await seen(tab), about = [...files].map(([name, bytes]) => name === "script" ? "" : bytes.toString()).join(" ");
    const words = /camplot (script(?: --depth \d+)?)/.exec(`${told} ${about}`)?.[1] ?? "script";
    const { status, replies } = ran(files, words.split(" "));
    assert.equal(status, 0, `camplot ${words}: ${replies.filter((reply) => reply.startsWith("refused")).length} lines are refused`);
  });
});

suite("what is saved", () => {
  test("is named to be saved once the browser has it", async () => {
    const tab = await withFiles(onDisk({ "a.gtl": gerber("X0Y0D03*"), "b.gbl": gerber("X0Y0D03*") }));
    await type(tab, "move top 0 0 1000", "move bottom 0 0 1000");
    await press(tab, "#layers .name", 0);
    await rest(tab);
    await saving(tab, () => tab.key("S", CTRL | 8));
    await rest(tab);
    assert.notEqual((await seen(tab)).unsaved, "all saved");
    const { name, bytes } = await saving(tab, () => tab.key("s", CTRL));
    await rest(tab);
    assert.equal((await seen(tab)).unsaved, "all saved");
    assert.equal(name, "board.zip");
    assert.deepEqual([...unzipped(bytes).keys()].sort(), ["a.gtl", "b.gbl"]);
  });
});
