// A whole layer moved, turned and mirrored in its dialogue; copies that go into another board; measures that stay; the board as it
// will be made as SVG and on paper.

import assert from "node:assert/strict";
import { CTRL, SHIFT, gerber, lines, onPage, text, written } from "./support.js";
import { answer, drop, onDisk, press, toBoard } from "./hands.js";
import { ran, saving, unzipped } from "./saving.js";
import { rest, seen } from "./seen.js";
import { suite, test } from "../../tools/tests/harness.js";
import { tabs } from "./tab.js";

const open = tabs();
const idle = (tab) => tab.ask("camplot.idle()");
const told = (tab) => text(tab, "told");
const steps = (tab) => tab.ask("camplot.steps.done.length");

async function dropped(tab, files) {
  const before = (await seen(tab)).layers.length;
  await drop(tab, onDisk(files));
  await tab.wait(`camplot.state.layers.length === ${before + Object.keys(files).length}`, 60);
  await rest(tab);
  await toBoard(tab);
}

async function withFiles(files) {
  const tab = await open();
  await dropped(tab, files);
  return tab;
}

async function choose(tab, name) {
  await tab.ask(`camplot.makeActive(${JSON.stringify(name)})`);
  await idle(tab);
}

// Sets a field of the dialogue as a person does.
async function set(tab, id, value) {
  await tab.ask(`(() => { const field = document.getElementById("${id}"); field.value = ${JSON.stringify(value)};
    field.dispatchEvent(new Event("input", { bubbles: true })); })()`);
}

const canAnswer = (tab) => tab.ask("!document.querySelector('#question-choices button').disabled");

// Opens the dialogue for the chosen layer, sets fields and answers.
async function change(tab, fields) {
  await tab.key("M", SHIFT);
  await tab.wait("document.getElementById('question').open");
  for (const [id, value] of Object.entries(fields)) await set(tab, id, value);
  await answer(tab, /^Change the layer$/);
  await tab.wait("camplot.state.questions.length === 0");
  await idle(tab);
  await toBoard(tab);
}

// What the program writes of a layer at the end of the page's script.
async function outside(tab, name) {
  const files = unzipped((await saving(tab, () => tab.key("e", CTRL))).bytes);
  const script = `${files.get("script")}write ${name} written/now\n`;
  const { status, replies, read } = ran(new Map([...files, ["script", script], ["written/now", ""]]), ["script", "--depth", "1000"]);
  assert.equal(status, 0, replies.join("\n"));
  return read("written/now").toString("latin1");
}

const PADS = gerber("X0Y0D03*", "D11*", "X4000000Y1000000D03*", "D10*", "X-3000000Y0D02*", "X-3000000Y2000000D01*");

suite("a whole layer", () => {
  test("is moved as one step, and nothing else is", async () => {
    const tab = await withFiles({ "a.gtl": PADS, "b.gbl": PADS }), before = await written(tab, "top"), below = await written(tab, "bottom");
    await choose(tab, "top");
    await change(tab, { "whole-dx": "1.5", "whole-dy": "-0.25" });
    assert.deepEqual((await lines(tab)).filter((line) => /^move /.test(line)).map((line) => line.split(" -> ")[0]),
      [0, 1, 2].map((place) => `move top ${place} 1500000 -250000`));
    assert.equal(await steps(tab), 1);
    assert.equal(await written(tab, "top"), await outside(tab, "top"));
    assert.equal(await written(tab, "bottom"), below);
    await tab.key("z", CTRL);
    await idle(tab);
    assert.equal(await written(tab, "top"), before);
  });

  test("is turned and mirrored about the middle of all layers, of its own, or the zero point, there and back", async () => {
    // (the other layer is larger, so that all have the same middle after each turn)
    const tab = await withFiles({ "a.gtl": PADS, "b.gbl": gerber("X-20000001Y-19000000D03*", "X20000000Y21000001D03*") }), before = await written(tab, "top");
    await choose(tab, "top");
    for (const about of ["all", "layer", "zero"]) {
      for (const [turn, times] of [["r90", 4], ["r180", 2], ["m0", 2], ["m180", 2]]) {
        for (let time = 0; time < times; time++) await change(tab, { "whole-turn": turn, "whole-about": about });
        assert.equal(await written(tab, "top"), before, `${turn} about ${about}`);
      }
      await change(tab, { "whole-turn": "r270", "whole-about": about });
      assert.notEqual(await written(tab, "top"), before);
      assert.equal(await written(tab, "top"), await outside(tab, "top"));
      await tab.key("z", CTRL);
      await idle(tab);
    }
  });

  test("lies where the dialogue says, and its limits are told before", async () => {
    const tab = await withFiles({ "a.gtl": PADS });
    await tab.key("M", SHIFT);
    await tab.wait("document.getElementById('question').open");
    assert.equal(await canAnswer(tab), false);
    const body = await text(tab, "question-body");
    assert.match(body, /3 items: one group of lines, and one step to undo\. A turn deletes each item/);
    await set(tab, "whole-turn", "r90");
    await set(tab, "whole-about", "zero");
    await set(tab, "whole-dx", "10");
    assert.equal(await canAnswer(tab), true);
    assert.equal(await text(tab, "whole-lies"), "It lies from 7.500, -3.500 to 10.500, 5.000 mm then.");
    await set(tab, "whole-dx", "far");
    assert.equal(await canAnswer(tab), false);
    assert.match(await text(tab, "whole-lies"), /A step is a length/);
    await set(tab, "whole-dx", "10");
    await answer(tab, /^Change the layer$/);
    await idle(tab);
    const box = JSON.parse(await tab.ask("camplot.machine.link.call('boxes', { names: ['top'] }).then((it) => JSON.stringify(it.boxes[0].split(' ').map(Number)))"));
    assert.deepEqual(box, [7500000, -3500000, 10500000, 5000000]);
  });

  test("with a repeat is moved, and not turned", async () => {
    const tab = await withFiles({ "a.gtl": gerber("X0Y0D03*", "%SRX2Y1I3J0*%", "X9000000Y0D03*", "%SR*%") });
    await tab.key("M", SHIFT);
    await tab.wait("document.getElementById('question').open");
    assert.match(await text(tab, "question-body"), /1 repeat, which no line inserts: the layer can be moved, and not turned/);
    assert.deepEqual(await tab.ask("[...document.querySelectorAll('#whole-turn option')].map(({ value }) => value)"), ["r0"]);
    await set(tab, "whole-dx", "1");
    await answer(tab, /^Change the layer$/);
    await idle(tab);
    assert.equal(await written(tab, "top"), await outside(tab, "top"));
    assert.equal(await steps(tab), 1);
  });

  test("that the station refuses to move so far stays as it is", async () => {
    const tab = await withFiles({ "a.gtl": PADS }), before = await written(tab, "top");
    await change(tab, { "whole-dx": "999.999" });
    assert.match(await told(tab), /refused/);
    assert.equal(await written(tab, "top"), before);
    assert.equal(await steps(tab), 0);
  });

  test("is left as it is by Cancel, and by Escape", async () => {
    const tab = await withFiles({ "a.gtl": PADS }), before = await written(tab, "top");
    for (const leave of [() => answer(tab, /^Cancel$/), () => tab.key("Escape")]) {
      await tab.key("M", SHIFT);
      await tab.wait("document.getElementById('question').open");
      await set(tab, "whole-dx", "5");
      await leave();
      await tab.wait("camplot.state.questions.length === 0");
      await idle(tab);
      assert.equal(await written(tab, "top"), before);
    }
    assert.equal(await steps(tab), 0);
  });
});

const OTHER = Buffer.from("%FSLAX46Y46*%\n%MOMM*%\n%ADD10R,2.000000X1.000000*%\n%ADD20C,1.000000*%\nG01*\nD10*\nX0Y0D03*\nM02*\n");
const LACKS = Buffer.from("%FSLAX46Y46*%\n%MOMM*%\n%ADD10C,0.300000*%\nG01*\nD10*\nX0Y0D03*\nM02*\n");

suite("copied items", () => {
  test("go into another board, by the apertures that are the same there", async () => {
    const tab = await withFiles({ "a.gtl": PADS });
    await tab.key("a", CTRL);
    await idle(tab);
    await tab.key("c", CTRL);
    await idle(tab);
    await press(tab, "[data-act=new-board]");
    await rest(tab);
    await dropped(tab, { "b.gtl": OTHER });
    await tab.key("v", CTRL);
    await idle(tab);
    assert.deepEqual((await lines(tab)).filter((line) => /^insert /.test(line)).map((line) => line.split(" -> ")[0]), [
      "insert top 1 flash 20 100000 100000 r0 dark", "insert top 2 flash 10 4100000 1100000 r0 dark",
      "insert top 3 draw 20 -2900000 100000 -2900000 2100000 r0 dark"]);
    assert.equal(await written(tab, "top"), await outside(tab, "top"));
  });

  test("are not pasted where an aperture lacks, and it says which", async () => {
    const tab = await withFiles({ "a.gtl": PADS });
    await tab.key("a", CTRL);
    await idle(tab);
    await tab.key("c", CTRL);
    await idle(tab);
    await press(tab, "[data-act=new-board]");
    await rest(tab);
    await dropped(tab, { "b.gtl": LACKS });
    const before = (await lines(tab)).length;
    await tab.key("v", CTRL);
    await idle(tab);
    assert.match(await told(tab), /has no aperture like that of what was copied: circle 1 mm/);
    assert.equal((await lines(tab)).length, before);
  });

  test("keep their numbers in their own layer, and change them in another one of the board", async () => {
    const tab = await withFiles({ "a.gtl": PADS, "b.gbl": OTHER });
    await choose(tab, "top");
    await tab.key("a", CTRL);
    await idle(tab);
    await tab.key("c", CTRL);
    await idle(tab);
    await tab.key("v", CTRL);
    await idle(tab);
    await choose(tab, "bottom");
    await tab.key("v", CTRL);
    await idle(tab);
    const words = (await lines(tab)).filter((line) => /^insert /.test(line)).map((line) => line.split(" ").slice(1, 5).join(" "));
    assert.deepEqual(words, ["top 3 flash 10", "top 4 flash 11", "top 5 draw 10", "bottom 1 flash 20", "bottom 2 flash 10", "bottom 3 draw 20"]);
  });
});

// Drags from one point of the board to another, { x, y } in nm.
async function drag(tab, from, to) {
  const [a, b] = [await onPage(tab, ...from), await onPage(tab, ...to)];
  const mouse = (type, [x, y], buttons) => tab.call("Input.dispatchMouseEvent", { type, x, y, button: "left", buttons, clickCount: 1 });
  await mouse("mousePressed", a, 1);
  for (const part of [0.5, 1]) await mouse("mouseMoved", [a[0] + part * (b[0] - a[0]), a[1] + part * (b[1] - a[1])], 1);
  await mouse("mouseReleased", b, 0);
}

const measures = (tab) => tab.ask("camplot.marks.measures.length");

suite("measures", () => {
  test("stay next to one another until Escape, whatever tool is taken", async () => {
    const tab = await withFiles({ "a.gtl": PADS });
    await tab.key("m");
    await drag(tab, [0, 0], [4000000, 1000000]);
    await drag(tab, [-3000000, 0], [-3000000, 2000000]);
    assert.equal(await measures(tab), 2);
    await tab.key("v");
    assert.equal(await measures(tab), 2);
    await tab.key("a", CTRL);
    await idle(tab);
    await tab.key("Escape");
    assert.equal(await measures(tab), 0);
    assert.equal(await tab.ask("camplot.state.picked.length"), 3);
    await tab.key("Escape");
    await idle(tab);
    assert.equal(await tab.ask("camplot.state.picked.length"), 0);
  });

  test("are none of a click, and none of another board", async () => {
    const tab = await withFiles({ "a.gtl": PADS });
    await tab.key("m");
    await drag(tab, [0, 0], [0, 0]);
    assert.equal(await measures(tab), 0);
    await drag(tab, [0, 0], [4000000, 0]);
    assert.equal(await measures(tab), 1);
    await press(tab, "[data-act=new-board]");
    await rest(tab);
    assert.equal(await measures(tab), 0);
  });
});

const BOARD = { "a.gtl": PADS, "a.gts": gerber("X0Y0D03*"), "a.gko": gerber("X-6000000Y-4000000D02*", "X6000000Y-4000000D01*", "X6000000Y4000000D01*",
  "X-6000000Y4000000D01*", "X-6000000Y-4000000D01*") };

async function asMade(tab) {
  await tab.key("b");
  await tab.wait("camplot.state.made.isShown");
  await idle(tab);
}

suite("the board as it will be made", () => {
  test("is saved as SVG to scale, with one picture", async () => {
    const tab = await withFiles(BOARD);
    await asMade(tab);
    const { name, bytes } = await saving(tab, async () => {
      await tab.key("P", SHIFT);
      await tab.wait("document.getElementById('question').open");
      await tab.ask(`(() => { const form = document.querySelector("#question-body select"); form.value = "svg"; form.onchange(); })()`);
      await answer(tab, /^Save$/);
    });
    const svg = bytes.toString(), [, wide, high] = /width="([\d.]+)mm" height="([\d.]+)mm"/.exec(svg) ?? [];
    assert.equal(name, "board.svg");
    // 12 by 8 mm with the pen of the outline, 1 mm, and a pixel of 25,400 nm on each side.
    assert.ok(Math.abs(Number(wide) - 13) < 0.16 && Math.abs(Number(high) - 9) < 0.16, `${wide} ${high}`);
    assert.equal(svg.match(/<image /g)?.length, 1);
    assert.match(svg, /The top of the board as it will be made/);
    await idle(tab);
    assert.match(await told(tab), /The board as it will be made is saved as board\.svg, with pixels of 25,400 nm/);
    const pixel = await tab.ask(`(async () => {
      const [, data] = /base64,([^"]+)"/.exec(${JSON.stringify(svg)}), bytes = Uint8Array.from(atob(data), (letter) => letter.charCodeAt(0));
      const image = await createImageBitmap(new Blob([bytes], { type: "image/png" }));
      const canvas = new OffscreenCanvas(image.width, image.height), context = canvas.getContext("2d");
      context.drawImage(image, 0, 0);
      const at = (x, y) => [...context.getImageData(Math.round(x * image.width), Math.round(y * image.height), 1, 1).data];
      return JSON.stringify({ corner: at(0, 0), board: at(0.5, 0.2), pad: at(0.5, 0.5) });
    })()`);
    const { corner, board, pad } = JSON.parse(pixel);
    assert.equal(corner[3], 0);
    assert.equal(board[3], 255);
    assert.notDeepEqual(board, pad);
  });
});
