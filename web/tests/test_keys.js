// The page by keys alone: every control is reached and pressed, and what is typed is never taken by the board.

import assert from "node:assert/strict";
import { readdirSync } from "node:fs";
import { join } from "node:path";
import { CTRL, EXAMPLES, lines, openPage, picked, savedFile, settle, text, withBoard, withPads } from "./support.js";
import { focused, stroke, strokes, tabTo } from "./keyboard.js";
import { pause } from "./hands.js";
import { suite, test } from "../../tools/tests/harness.js";

const idle = (browser) => browser.ask("camplot.idle()");
const linesAlone = async (browser) => (await lines(browser)).map((line) => line.split(" -> ")[0]);

const CONTROLS = "button, input, select, summary, [tabindex='0']";

// Marks the control that has the focus; the words of those that are seen and were never marked.
const mark = (browser) => browser.ask("document.activeElement.dataset.visited = 'yes'");
const unmarked = (browser) => browser.ask(`[...document.querySelectorAll("${CONTROLS}")].filter((one) => !one.disabled
  && one.checkVisibility() && !one.dataset.visited).map((one) => one.outerHTML.slice(0, 120))`);

// Opens files in the dialogue of the key.
async function openByKey(browser, paths) {
  await browser.call("Page.setInterceptFileChooserDialog", { enabled: true });
  await stroke(browser, "o", CTRL);
  const isOpened = ({ method }) => method === "Page.fileChooserOpened";
  for (let left = 200; !browser.events.some(isOpened) && left > 0; left--) await new Promise((done) => setTimeout(done, 20));
  const { backendNodeId } = browser.events.find(isOpened).params;
  await browser.call("DOM.setFileInputFiles", { files: paths, backendNodeId });
}

// Answers the question that is open, by Tab and Enter.
async function answer(browser, words) {
  const at = `[...document.querySelectorAll("#question-choices button")].findIndex((one) => one.textContent === "${words}")`;
  await browser.wait(`document.getElementById("question").open && ${at} >= 0`, 60);
  const title = await text(browser, "question-title");
  await tabTo(browser, `#question-choices button:nth-child(${1 + await browser.ask(at)})`);
  await stroke(browser, "Enter");
  await browser.wait(`!document.getElementById("question").open || document.getElementById("question-title").textContent !== "${title}"`, 60);
}

suite("keys alone", () => {
  test("Tab goes over every control of a board, each seen with the focus", async () => {
    const browser = await withBoard(), faults = [], seen = [];
    await browser.ask("camplot.pickPlace('top', 6).then(() => camplot.run(['move top 6 1 1']))");
    await idle(browser);
    for (let left = 500; left > 0; left--) {
      await stroke(browser, "Tab");
      const now = await focused(browser);
      if (!now || await browser.ask("document.activeElement.dataset.visited === 'yes'")) break;
      seen.push(now.words);
      faults.push(...now.faults.map((fault) => `${now.words}: ${fault}`));
      await mark(browser);
      // What is folded is opened, and the nets are found, so that their controls are tried too.
      if (now.isClosed) await stroke(browser, "Enter");
      if (now.id === "nets-on") await stroke(browser, " ");
      if (now.isClosed || now.id === "nets-on") await pause(50).then(() => idle(browser));
    }
    assert.deepEqual(faults, []);
    assert.deepEqual(await unmarked(browser), []);
    assert.ok(seen.length > 130, `${seen.length}`);
    assert.equal(await browser.ask("camplot.state.nets.isOn && document.getElementById('items-panel').open"), true);
    assert.deepEqual(await linesAlone(browser).then((all) => all.filter((line) => /^(move|delete|insert)/.test(line))), ["move top 6 1 1"]);
  });

  test("opens, picks in the list, moves, undoes and saves", async () => {
    const browser = await openPage(), folder = join(EXAMPLES, "kicad");
    await openByKey(browser, readdirSync(folder).filter((name) => /\.gbr$/.test(name)).map((name) => join(folder, name)));
    await browser.wait("camplot.state.layers.length > 3");
    await idle(browser);
    assert.equal(await browser.ask("camplot.state.active"), "top");
    await tabTo(browser, "#items-panel summary");
    await stroke(browser, "Enter");
    await idle(browser);
    for (let at = 0; at < 3; at++) await tabTo(browser, "#items button");
    await stroke(browser, "Enter");
    await idle(browser);
    assert.match((await picked(browser)).join(), /^top 2 /);
    // The list was drawn anew, and the same item has the focus.
    assert.match((await focused(browser)).words, /^2 /);
    await stroke(browser, "ArrowRight");
    await idle(browser);
    await tabTo(browser, "#picked input", { isBack: true });
    await tabTo(browser, "#picked input[aria-label^='to the right']", { isBack: true });
    await browser.ask("document.activeElement.select()");
    await strokes(browser, "1.5");
    await stroke(browser, "Enter");
    await idle(browser);
    assert.deepEqual((await linesAlone(browser)).filter((line) => line.startsWith("move")), ["move top 2 10000 0", "move top 2 1500000 0"]);
    assert.match((await focused(browser)).words, /to the right/);
    await tabTo(browser, "[data-act=undo]", { isBack: true });
    await stroke(browser, " ");
    await idle(browser);
    await stroke(browser, "Enter");
    await idle(browser);
    assert.deepEqual(await browser.ask("[camplot.steps.done.length, camplot.steps.undone.length]"), [0, 2]);
    await tabTo(browser, "[data-act=save]", { isBack: true });
    await stroke(browser, "Enter");
    assert.equal((await savedFile(browser)).name, "board.zip");
    assert.deepEqual(browser.complaints(), []);
  });

  test("Space and Enter work what has the focus, and the board where it has it", async () => {
    const browser = await withPads();
    const shown = () => browser.ask("camplot.state.layers[0].isShown");
    await tabTo(browser, "#layers input[type=checkbox]");
    for (const [key, isShown] of [[" ", false], ["Enter", true], [" ", false], [" ", true]]) {
      await stroke(browser, key);
      assert.equal(await shown(), isShown, key);
      assert.equal((await focused(browser)).words, "top copper is shown");
    }
    assert.deepEqual(await picked(browser), []);
    await tabTo(browser, "#new-panel summary");
    await stroke(browser, " ");
    assert.equal(await browser.ask("document.getElementById('new-panel').open"), true);
    await stroke(browser, "Enter");
    assert.equal(await browser.ask("document.getElementById('new-panel').open"), false);
    await tabTo(browser, "#marks", { isBack: true });
    await browser.ask("camplot.view.centre(2000000, 0)");
    await stroke(browser, " ");
    await idle(browser);
    assert.deepEqual(await picked(browser), ["top 1 flash 10 2000000 0 r0 dark"]);
    await tabTo(browser, "[data-act=delete]", { isBack: true });
    await stroke(browser, "Enter");
    await idle(browser);
    assert.deepEqual((await linesAlone(browser)).slice(1), ["delete top 1"]);
  });

  test("arrows move a slider that has the focus, and the list of the script", async () => {
    const browser = await withPads();
    await browser.ask("camplot.pick([{ name: 'top', place: 0 }])");
    await tabTo(browser, "#layers input[type=range]");
    const opacity = () => browser.ask("camplot.state.layers[0].opacity");
    assert.equal(await opacity(), 0.85);
    await stroke(browser, "ArrowLeft");
    await stroke(browser, "ArrowDown");
    assert.equal(await opacity(), 0.83);
    await stroke(browser, "Home");
    assert.equal(await opacity(), 0.1);
    await browser.ask("camplot.run(Array.from({ length: 60 }, () => 'write top x'))");
    await tabTo(browser, "#script");
    const before = await browser.ask("document.getElementById('script').scrollTop");
    await stroke(browser, "ArrowUp");
    await browser.wait(`document.getElementById('script').scrollTop < ${before}`, 60);
    await idle(browser);
    assert.ok(!(await linesAlone(browser)).some((line) => line.startsWith("move")));
    await tabTo(browser, "#marks", { isBack: true });
    await stroke(browser, "ArrowUp");
    await idle(browser);
    assert.equal((await linesAlone(browser)).at(-1), "move top 0 0 10000");
  });

  test("what is typed stays in its field", async () => {
    const browser = await withPads();
    await browser.ask("camplot.pick([{ name: 'top', place: 0 }])");
    const before = await browser.ask("JSON.stringify([camplot.view.left, camplot.view.pitch, camplot.state.tool])");
    for (const selector of ["#grid", "#picked input[aria-label^=up]", "#search-place", "#line"]) {
      if (selector === "#search-place") {
        await tabTo(browser, "#items-panel summary");
        await stroke(browser, "Enter");
      }
      await tabTo(browser, selector);
      await browser.ask("document.activeElement.value = ''");
      await strokes(browser, "d x0[]+-f ?:hvmn16olcb");
      assert.equal(await browser.ask("document.activeElement.value"), "d x0[]+-f ?:hvmn16olcb", selector);
      for (const key of ["Delete", "Home", "ArrowRight", "PageDown"]) await stroke(browser, key);
      await stroke(browser, "a", CTRL);
      await stroke(browser, "Delete");
      // Escape goes to the board, and lets go of nothing.
      await stroke(browser, "Escape");
      assert.equal(await browser.ask("document.activeElement.id"), "marks");
    }
    await idle(browser);
    assert.deepEqual((await linesAlone(browser)).slice(1), []);
    assert.equal(await browser.ask("JSON.stringify([camplot.view.left, camplot.view.pitch, camplot.state.tool])"), before);
    assert.equal((await picked(browser)).length, 1);
    await stroke(browser, "Escape");
    await idle(browser);
    assert.deepEqual(await picked(browser), []);
  });

  test("the focus stays where a list is drawn anew", async () => {
    const browser = await withBoard();
    const words = async () => (await focused(browser)).words;
    await tabTo(browser, "#layers li:nth-child(3) .name");
    const layer = await words();
    await stroke(browser, "Enter");
    await idle(browser);
    assert.equal(await words(), layer);
    await browser.ask("camplot.run(['delete top 0']).then(() => camplot.run(['delete bottom 0']))");
    await idle(browser);
    assert.equal((await words()).replace(/\d+$/, ""), layer.replace(/\d+$/, ""));
    await tabTo(browser, "#history button");
    const step = await words();
    await browser.ask("camplot.run(['delete top 0'])");
    await idle(browser);
    assert.equal(await words(), step);
    await stroke(browser, "z", CTRL);
    await stroke(browser, "z", CTRL);
    await idle(browser);
    assert.equal(await words(), step);
    const bad = (name) => `{ name: "${name}", bytes: new TextEncoder().encode("%FSLAX36Y36*MOMM*%\\nM00*\\n") }`;
    await browser.ask(`void camplot.openFiles([${bad("a.gto")}, ${bad("b.gbo")}])`);
    await answer(browser, "Open them");
    await answer(browser, "Leave them out");
    await idle(browser);
    await tabTo(browser, "#refused li:nth-child(2) button");
    const refused = await words();
    assert.match(refused, /^convert [ab]\.g/);
    await browser.ask(`void camplot.openFiles([${bad("c.gts")}])`);
    await answer(browser, "Open them");
    await answer(browser, "Leave it out");
    await idle(browser);
    assert.equal(await words(), refused);
  });

  test("Ctrl C copies text that is selected, and else what is picked", async () => {
    const browser = await withPads();
    await browser.ask("camplot.pick([{ name: 'top', place: 2 }]); document.addEventListener('copy', () => { globalThis.copied = String(getSelection()); })");
    await idle(browser);
    const box = JSON.parse(await browser.ask("JSON.stringify(document.querySelector('#script code').getBoundingClientRect())"));
    await browser.drag([box.x + 1, box.y + 5], [box.x + 200, box.y + 5]);
    await stroke(browser, "c", CTRL);
    await browser.wait("globalThis.copied !== undefined", 60);
    assert.match(await browser.ask("copied"), /^load top gerber/);
    assert.deepEqual(await browser.ask("camplot.state.copied"), []);
    const [x, y] = await browser.ask("(() => { const box = document.getElementById('marks').getBoundingClientRect(); return [box.x + 300, box.y + 300]; })()");
    await browser.drag([x, y], [x + 20, y], "right");
    // A press on the board leaves no text selected. (That of the right button pans when it moves, and opens no menu.)
    await browser.wait("String(getSelection()) === ''", 60);
    await stroke(browser, "c", CTRL);
    await idle(browser);
    assert.deepEqual(await browser.ask("camplot.state.copied.length"), 1);
    assert.match(await text(browser, "told"), /1 copied/);
  });
});

// What screen readers are told: every control, its role and its name.
async function controlsTold(browser) {
  await browser.call("Accessibility.enable");
  const { nodes } = await browser.call("Accessibility.getFullAXTree");
  return nodes.filter(({ ignored, properties = [] }) => !ignored && properties.some(({ name, value }) => name === "focusable" && value.value))
    .map(({ role, name }) => ({ role: role.value, name: name?.value?.trim() ?? "" }));
}

const ROLES = new Set(["button", "checkbox", "textbox", "slider", "combobox", "ColorWell", "DisclosureTriangle", "application", "list",
  "RootWebArea", "dialog", "navigation", "complementary", "region", "group", "radio", "option", "code"]);

suite("the accessibility tree", () => {
  const assertTold = (controls, least) => {
    assert.deepEqual(controls.filter(({ role, name }) => !ROLES.has(role) || !name), []);
    assert.ok(controls.length >= least, `${controls.length}`);
  };

  test("of the first page: each control has a role and a name", async () => {
    assertTold(await controlsTold(await openPage()), 35);
  });

  test("of a page with a board, with an item, a step, a refused file and the nets", async () => {
    const browser = await withBoard();
    await browser.ask(`camplot.pickPlace('top', 6).then(() => camplot.run(['move top 6 1 1'])).then(() => {
      for (const details of document.querySelectorAll("details")) details.open = true;
      void camplot.openFiles([{ name: "bad.gto", bytes: new TextEncoder().encode("%FSLAX36Y36*MOMM*%\\nM00*\\n") }]); })`);
    await answer(browser, "Open them");
    await browser.wait("document.getElementById('question-title').textContent.startsWith('Convert')");
    assertTold(await controlsTold(browser), 5);
    await answer(browser, "Leave it out");
    await settle(browser);
    await idle(browser);
    await browser.ask("document.getElementById('nets-on').click()");
    await idle(browser);
    const controls = await controlsTold(browser);
    assertTold(controls, 180);
    for (const [role, name] of [["application", /^The board/], ["checkbox", /^top copper is shown/], ["slider", /^how opaque top copper is/],
      ["ColorWell", /^colour of top copper/], ["button", /^compare with before: move top 6/], ["textbox", /^to the right, in mm/],
      ["combobox", /^aperture or tool/], ["button", /^convert bad\.gto/], ["DisclosureTriangle", /^All items/]]) {
      assert.ok(controls.some((control) => control.role === role && name.test(control.name)), `${role} ${name}`);
    }
  });
});
