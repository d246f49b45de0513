// Every board of the repository: opened, edited, closed in the middle of an edit, opened again, and saved; the program
// makes the same texts and plots of the saved script.

import assert from "node:assert/strict";
import { readdirSync, statSync } from "node:fs";
import { join } from "node:path";
import { CTRL, EXAMPLES, REPOSITORY } from "./support.js";
import { WRITES, armWrite, canBeEnded } from "./faults.js";
import { answer, drop, openFiles, press, saveBare, toBoard, typeLine } from "./hands.js";
import { layerTexts, ran, saving, unzipped } from "./saving.js";
import { linesNow, rest, restAgain, scriptNow, seen } from "./seen.js";
import { suite, test } from "../../tools/tests/harness.js";
import { tabs } from "./tab.js";

const open = tabs();
const CASES = join(REPOSITORY, "tools", "cases");
// The most layers of a document.
const MOST = 32;

const isFile = (path) => statSync(path).isFile() && !/\.(md|json|items|py|c|said)$|move_a_pad$|script$/.test(path);
const filesIn = (folder) => readdirSync(folder).sort().map((name) => join(folder, name)).filter(isFile);
const under = (folder) => readdirSync(folder).sort().map((name) => join(folder, name)).filter((path) => statSync(path).isDirectory());

// The folders with boards: the examples, the boards of CAD programs, and files of one form each, of which those of
// to_gerber have all the same name.
function boards() {
  const folders = [...under(EXAMPLES), ...under(join(CASES, "board")), ...["drill", "gerber_layers", "items", "old_gerber"].map((name) => join(CASES, name))];
  const named = (folder) => folder.slice(REPOSITORY.length + 1), forms = join(CASES, "to_gerber");
  return [...folders.map((folder) => ({ name: named(folder), paths: filesIn(folder) })),
    { name: named(forms), paths: under(forms).map((folder) => join(folder, "file.gbr")) }]
    .filter(({ paths }) => paths.length).map(({ name, paths }) => ({ name, paths: paths.slice(0, MOST) }));
}

// Answers what is asked while files are opened: what can be converted is.
async function answered(tab) {
  for (let turn = 0; turn < 80; turn++) {
    await rest(tab);
    const { question } = await seen(tab);
    if (!question) return;
    const at = question.answers.findIndex(({ isOff }) => !isOff);
    await press(tab, "#question-choices button", at);
  }
  assert.fail("there is no end of questions");
}

async function edited(tab, shown) {
  for (const { name, items } of shown.filter((layer) => layer.items > 1)) {
    await typeLine(tab, `move ${name} ${items - 1} 10000 -20000`);
    await typeLine(tab, `delete ${name} 0`);
  }
  for (const line of ["undo", "list", "window -1000000 -1000000 250000 300 200"]) await typeLine(tab, line);
  await rest(tab);
  await toBoard(tab);
}

const layersOf = ({ layers }) => layers.map(({ name, items, label, isShown }) => `${name} ${items} ${label} ${isShown}`);

// Ends the page's process while it writes an edit, and opens it again.
async function closedInAnEdit(tab, name) {
  const before = await linesNow(tab);
  await canBeEnded(tab);
  await armWrite(tab, "stop", 1);
  const from = tab.browser.events.length;
  typeLine(tab, `delete ${name} 0`).catch(() => {});
  await tab.heard("Runtime.bindingCalled", from);
  await tab.crash();
  const again = await open({ context: tab.context, first: [WRITES] });
  await restAgain(again);
  const after = await linesNow(again);
  assert.deepEqual(after.slice(0, before.length), before);
  assert.ok(after.length <= before.length + 1, after.slice(before.length).join("; "));
  return again;
}

// Saves the layers one by one in a ZIP, and a plot of each shown one.
async function savedBy(tab) {
  const plots = await saving(tab, async () => {
    await tab.key("p", CTRL);
    await tab.wait("document.getElementById('question').open", 60);
    await tab.ask(`document.querySelectorAll("#question-body select").forEach((choice) => {
      for (const value of ["pbm", "shown"]) if ([...choice.options].some((option) => option.value === value)) choice.value = value; })`);
    await tab.ask("document.querySelectorAll('#question-body input').forEach((input) => { input.value = '150'; })");
    await answer(tab, /Save/);
  });
  await rest(tab);
  const texts = await saving(tab, async () => {
    await saveBare(tab);
    await rest(tab);
  });
  await rest(tab);
  const script = await saving(tab, () => tab.key("e", CTRL));
  const plotted = plots.name.endsWith(".zip") ? unzipped(plots.bytes) : new Map([[plots.name, plots.bytes]]);
  return { plots: plotted, texts: await layerTexts(tab, texts.bytes), files: unzipped(script.bytes) };
}

// The path of the last line of a verb for a layer.
const pathOf = (script, verb, name) => script.split("\n").filter((line) => line.startsWith(`${verb} ${name} `)).pop().split(" ")[2];

suite("a board", () => {
  for (const { name: board, paths } of boards()) {
    test(board, async () => {
      let tab = await open({ first: [WRITES] });
      await (paths.length % 2 ? drop : openFiles)(tab, paths);
      await tab.wait("camplot.state.layers.length > 0 || document.getElementById('question').open || !document.getElementById('refused-panel').hidden", 60);
      await answered(tab);
      const opened = await seen(tab);
      if (!opened.layers.length) {
        assert.ok(opened.refused.length > 0, opened.told);
        return;
      }
      assert.equal(opened.layers.length + opened.refused.length >= Math.min(paths.length, 1), true);
      await edited(tab, opened.layers);
      const changed = (await seen(tab)).layers.find(({ items }) => items > 0);
      if (changed) tab = await closedInAnEdit(tab, changed.name);
      const shown = await seen(tab);
      assert.deepEqual(shown.layers.map(({ name }) => name), opened.layers.map(({ name }) => name));
      await tab.reload();
      await rest(tab);
      assert.deepEqual(layersOf(await seen(tab)), layersOf(shown));
      if (!shown.layers.some(({ isShown, items }) => isShown && items)) return;
      const { plots, texts, files } = await savedBy(tab), script = files.get("script").toString("latin1");
      assert.equal(script, await scriptNow(tab));
      const { replies, read } = ran(files, ["script", "--depth", "1000"]);
      assert.ok(!replies.some((reply) => reply.startsWith("refused")), replies.join("\n"));
      assert.equal(texts.size, shown.layers.length);
      for (const [name, bytes] of texts) assert.ok(read(pathOf(script, "write", name)).equals(bytes), name);
      for (const [name, bytes] of plots) assert.ok(read(pathOf(script, "plot", name.replace(/\.\w+$/, ""))).equals(bytes), name);
      assert.ok(plots.size > 0);
      assert.deepEqual(tab.complaints(), []);
    });
  }
});
