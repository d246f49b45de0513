// Pictures in colours to be given away, and the board from below.

import assert from "node:assert/strict";
import { PAD, SHIFT, clickAt, lines, onPage, picked, room, savedFile, settle, text, withBoard, withPads } from "./support.js";
import { idle, lastLine, reload, write } from "./looking.js";
import { readFileSync, writeFileSync } from "node:fs";
import { skip, suite, test } from "../../tools/tests/harness.js";
import { execFileSync } from "node:child_process";
import { join } from "node:path";
import { onPath } from "./on_path.js";
import { press } from "./hands.js";
import { svgOf } from "../page/giving.js";

// The pixels of an image file, in the page: { width, height, data } as base64 of RGBA.
const DECODE = `globalThis.pixelsOf = async (blob) => {
  const image = await createImageBitmap(blob), context = new OffscreenCanvas(image.width, image.height).getContext("2d");
  context.drawImage(image, 0, 0);
  return context.getImageData(0, 0, image.width, image.height);
};
globalThis.bytesOf = (text) => Uint8Array.from(atob(text), (letter) => letter.charCodeAt(0));`;

async function saveView(browser) {
  await browser.ask("camplot.saved.blob = null");
  await browser.key("P", SHIFT);
  await browser.wait("document.getElementById('question').open");
  await press(browser, "#question-choices button");
  return savedFile(browser);
}

async function saveSvg(browser, dots) {
  await browser.ask("camplot.saved.blob = null");
  await press(browser, "[data-act=give]");
  await browser.ask("document.querySelector('#question-body select').focus()");
  await browser.key("ArrowDown");
  await write(browser, "#question-body input", dots);
  await press(browser, "#question-choices button");
  const { name, bytes } = await savedFile(browser);
  return { name, svg: bytes.toString() };
}

const blobOf = (bytes) => `new Blob([bytesOf("${bytes.toString("base64")}")])`;

suite("pictures to give away", () => {
  test("the view as PNG has the pixels of the screen, and nothing over it", async () => {
    const browser = await withBoard();
    await browser.ask(DECODE);
    await browser.ask("camplot.view.zoom(1.7, 300, 200)");
    await settle(browser);
    const { name, bytes } = await saveView(browser);
    assert.equal(name, "view.png");
    assert.match(await text(browser, "told"), /^The view is saved as view\.png\.$/);
    const found = await browser.ask(`pixelsOf(${blobOf(bytes)}).then((png) => {
      camplot.marks.pointer = null;
      camplot.view.paintNow();
      const { width, height } = camplot.view.canvas, seen = camplot.view.context.getImageData(0, 0, width, height);
      const one = new Uint32Array(png.data.buffer), other = new Uint32Array(seen.data.buffer), colours = new Set();
      let differing = 0, rulers = 0;
      for (let at = 0; at < one.length; at++) {
        const isRuler = at % width < 20 || at < 20 * width;
        if (one[at] !== other[at] && !isRuler) differing++;
        if (one[at] !== other[at] && isRuler) rulers++;
        colours.add(one[at]);
      }
      return { differing, rulers, colours: colours.size, sides: png.width === width && png.height === height };
    })`);
    assert.equal(found.differing, 0);
    assert.ok(found.sides && found.colours > 10 && found.rulers > 1000, JSON.stringify(found));
    // What is picked lies over the view, and is not in the picture.
    await clickAt(browser, ...PAD);
    await idle(browser);
    assert.equal((await picked(browser)).length, 1);
    assert.deepEqual((await saveView(browser)).bytes, bytes);
    assert.equal((await lines(browser)).length, 8);
    assert.deepEqual(browser.complaints(), []);
  });

  test("without a shown layer there is none", async () => {
    const browser = await withPads();
    await press(browser, "[data-act=none]");
    await browser.key("P", SHIFT);
    await press(browser, "#question-choices button");
    await browser.wait("document.getElementById('told').textContent === 'No layer is shown.'");
  });

  test("names in an SVG are text", () => {
    const window = { left: 0, low: -1500000, pitch: 25400, width: 100, height: 50 };
    const layers = [{ label: "a<b>&\"c\"\u0000", colour: "#ff0000", opacity: 0.5, png: new Uint8Array([1, 2, 3]) }];
    const svg = svgOf(window, "#101418", layers, false), below = svgOf(window, "#101418", layers, true);
    assert.match(below, /; seen from below<\/title>[^]*<g transform="matrix\(-1 0 0 1 100 0\)">/);
    assert.ok(!/below|matrix/.test(svg));
    assert.match(svg, /width="2\.54mm" height="1\.27mm" viewBox="0 0 100 50"/);
    assert.match(svg, /<title>a&#60;b&#62;&#38;&#34;c&#34;, #ff0000<\/title>/);
    assert.match(svg, /<title>1 layer, exact pictures with pixels of 25400 nm; the lower left corner .* is at 0\.000, -1\.500 mm/);
  });

  test("the shown layers as SVG: another program draws what the page shows", async () => {
    const browser = await withBoard(), folder = room();
    const { name, svg } = await saveSvg(browser, "1000");
    assert.equal(name, "board.svg");
    assert.match(await text(browser, "told"), /^The shown layers are saved as board\.svg, with pixels of 25,400 nm\.$/);
    const shown = await browser.ask("camplot.state.layers.filter(({ isShown }) => isShown).map(({ label }) => label)");
    assert.deepEqual([...svg.matchAll(/<title>([^<]*), #/g)].map(([, label]) => label), shown);
    const sides = /width="([\d.]+)mm" height="([\d.]+)mm" viewBox="0 0 (\d+) (\d+)"/.exec(svg);
    const [, width, height, columns, rows] = sides.map(Number);
    assert.ok(Math.abs(width - columns * 0.0254) < 1e-9 && Math.abs(height - rows * 0.0254) < 1e-9);
    assert.equal((await lines(browser)).length, 8);
    assert.equal(await browser.ask("camplot.steps.done.length"), 0);
    // Each picture inside is the station's, pixel for pixel.
    const [, left, low] = /is at (-?[\d.]+), (-?[\d.]+) mm/.exec(svg).map((value) => Math.round(Number(value) * 1e6));
    await browser.ask(DECODE);
    const names = await browser.ask("camplot.state.layers.filter(({ isShown }) => isShown).map(({ name }) => name)");
    const inside = [...svg.matchAll(/base64,([^"]+)"/g)].map(([, data]) => Buffer.from(data, "base64"));
    for (const [at, layer] of names.entries()) {
      const plotted = [`window ${left} ${low} 25400 ${columns} ${rows}`, `plot ${layer} plots/${layer}`];
      assert.deepEqual(await browser.ask(`Promise.all([pixelsOf(${blobOf(inside[at])}), camplot.run(${JSON.stringify(plotted)})])
        .then(([png, { answers: [, { bytes }] }]) => {
          const stride = png.width + 7 >> 3, from = bytes.length - stride * png.height;
          let differing = 0, black = 0;
          for (let y = 0; y < png.height; y++) for (let x = 0; x < png.width; x++) {
            const isBlack = bytes[from + y * stride + (x >> 3)] >> 7 - (x & 7) & 1;
            black += isBlack;
            differing += (png.data[4 * (y * png.width + x) + 3] === 255) !== (isBlack === 1);
          }
          return [png.width, png.height, differing, black > 0]; })`), [columns, rows, 0, true], layer);
    }
    if (!onPath("rsvg-convert")) skip("rsvg-convert (librsvg2-bin) is not at hand, so no other program draws the SVG");
    writeFileSync(join(folder, "board.svg"), svg);
    const size = ["--width", String(columns), "--height", String(rows)];
    execFileSync("rsvg-convert", [...size, "-o", join(folder, "board.png"), join(folder, "board.svg")], { stdio: "pipe" });
    await settle(browser);
    // Where the view has one colour around a pixel, the other program has that colour at that point.
    const found = await browser.ask(`pixelsOf(${blobOf(readFileSync(join(folder, "board.png")))}).then((other) => {
      const { view } = camplot, { width, height } = view.canvas, { data } = view.context.getImageData(0, 0, width, height);
      const at = (x, y) => [0, 1, 2].map((part) => data[4 * (y * width + x) + part]);
      const colours = new Set(), near = [-2, -1, 0, 1, 2];
      let compared = 0, differing = 0;
      for (let y = 30; y < height - 3; y += 3) for (let x = 30; x < width - 3; x += 3) {
        const here = at(x, y);
        const isFlat = near.every((down) => near.every((across) => at(x + across, y + down).join() === here.join()));
        const point = view.pointAt(x + 0.5, y + 0.5), column = Math.floor((point.x - ${left}) / 25400);
        const row = other.height - 1 - Math.floor((point.y - ${low}) / 25400);
        if (!isFlat || column < 0 || row < 0 || column >= other.width || row >= other.height) continue;
        compared++;
        colours.add(here.join());
        differing += [0, 1, 2].some((part) => Math.abs(other.data[4 * (row * other.width + column) + part] - here[part]) > 3);
      }
      return { compared, differing, colours: colours.size, width: other.width, height: other.height };
    })`);
    assert.deepEqual([found.width, found.height, found.differing], [columns, rows, 0], JSON.stringify(found));
    assert.ok(found.compared > 5000 && found.colours >= 6, JSON.stringify(found));
    assert.deepEqual(browser.complaints(), []);
  });

  test("too fine a pitch, and none, are refused", async () => {
    const browser = await withBoard();
    for (const [dots, why] of [["100000", /more than 16,384 pixels/], ["0", /not a usable number/], ["x", /not a usable number/]]) {
      await press(browser, "[data-act=give]");
      await browser.ask("document.querySelector('#question-body select').focus()");
      await browser.key("ArrowDown");
      await write(browser, "#question-body input", dots);
      await press(browser, "#question-choices button");
      await browser.wait(`${why}.test(document.getElementById("told").textContent)`, 60);
    }
  });
});

suite("from below", () => {
  test("the view is mirrored, and the pointer, the picks and what is moved are right under it", async () => {
    const browser = await withBoard();
    await browser.ask(DECODE);
    // (one layer of a side alone, since the pile is turned over: test_board_view.js has that)
    await browser.ask("for (const name of ['bottom', 'top-silk']) camplot.machine.send({ kind: 'show', name, isShown: false })");
    await settle(browser);
    const above = await saveView(browser);
    await clickAt(browser, ...PAD);
    await idle(browser);
    const wanted = await picked(browser), place = await text(browser, "place");
    await browser.key("Escape");
    await idle(browser);
    await browser.key("B", SHIFT);
    assert.equal(await browser.ask("document.querySelector('[data-act=below]').getAttribute('aria-pressed')"), "true");
    await settle(browser);
    const below = await saveView(browser);
    const both = `[${blobOf(above.bytes)}, ${blobOf(below.bytes)}]`;
    const differing = await browser.ask(`Promise.all(${both}.map(pixelsOf)).then(([one, other]) => {
      const a = new Uint32Array(one.data.buffer), b = new Uint32Array(other.data.buffer), { width } = one;
      const mirrored = (at) => at - at % width + width - 1 - at % width;
      return [mirrored, (at) => at].map((of) => a.filter((pixel, at) => pixel !== b[of(at)]).length);
    })`);
    assert.equal(differing[0], 0);
    assert.ok(differing[1] > 10000);
    // A click picks what is seen there, and its outline is there.
    await clickAt(browser, ...PAD);
    await idle(browser);
    assert.deepEqual(await picked(browser), wanted);
    assert.equal(wanted.length, 1);
    const [one, other] = [place, await text(browser, "place")].map((words) => /^(\d+) (-\d+) nm/.exec(words).slice(1).map(Number));
    assert.ok(Math.hypot(one[0] - other[0], one[1] - other[1]) <= 1.5 * await browser.ask("camplot.view.pitch"), `${one} ${other}`);
    await browser.wait("/top copper/.test(document.getElementById('dark').textContent)", 60);
    await browser.ask("camplot.pickPlace('top', 6)");
    await settle(browser);
    const [x, y] = await onPage(browser, ...PAD), outlined = await browser.ask(`(() => {
      const { view, state } = camplot, { box } = state.picked[0], edge = view.placeOf(box.left, (box.low + box.high) / 2);
      const { data } = view.context.getImageData(Math.round(edge.x) - 2, Math.round(edge.y), 4, 1);
      const ink = document.documentElement.dataset.look === "light" ? 0 : 255;
      return [0, 4, 8, 12].some((at) => [0, 1, 2].every((part) => Math.abs(data[at + part] - ink) < 40));
    })()`);
    assert.ok(outlined);
    // To the right is where x is less.
    await browser.drag([x, y], [x + 60, y]);
    await idle(browser);
    const [, dx] = /^move top 6 (-?\d+) 0 -> ok$/.exec(await lastLine(browser)).map(Number);
    assert.ok(Math.abs(dx + 60 * await browser.ask("camplot.view.pitch")) < 60000, `${dx}`);
    await browser.key("ArrowRight");
    await idle(browser);
    assert.equal(await lastLine(browser), "move top 6 -10000 0 -> ok");
    assert.deepEqual(browser.complaints(), []);
  });

  test("boxes, the wheel, pans and links go with it, and it is kept", async () => {
    const browser = await withPads();
    await browser.ask("camplot.view.fit({ left: -1000000, low: -3000000, right: 9000000, high: 3000000 })");
    await press(browser, "[data-act=below]");
    await settle(browser);
    const [first, second] = [await onPage(browser, 0, 0), await onPage(browser, 2000000, 0)];
    assert.ok(second[0] < first[0]);
    await browser.drag(await onPage(browser, 2700000, 800000), await onPage(browser, -700000, -800000));
    await idle(browser);
    assert.deepEqual((await picked(browser)).map((words) => words.split(" ").slice(0, 2).join(" ")), ["top 0", "top 1"]);
    await browser.mouse("mouseMoved", ...second);
    await browser.mouse("mouseWheel", ...second, { deltaX: 0, deltaY: -400 });
    await settle(browser);
    const now = await onPage(browser, 2000000, 0), pitch = await browser.ask("camplot.view.pitch");
    assert.ok(Math.hypot(now[0] - second[0], now[1] - second[1]) < 1.5, `${now} ${second} ${pitch}`);
    await browser.drag(now, [now[0] + 50, now[1] + 20], "right");
    const panned = await onPage(browser, 2000000, 0);
    assert.ok(Math.hypot(panned[0] - now[0] - 50, panned[1] - now[1] - 20) < 1.5, `${panned}`);
    assert.match(await browser.ask("camplot.going.link()"), /,below$/);
    // Four flashes drawn by the pointer are where it was.
    await browser.key("1");
    await clickAt(browser, 3000000, 500000);
    await idle(browser);
    const [, at] = /^insert top 4 flash 10 (\d+) \d+ r0 dark -> ok$/.exec(await lastLine(browser)).map(Number);
    assert.ok(Math.abs(at - 3000000) < 20000, `${at}`);
    await reload(browser);
    assert.equal(await browser.ask("camplot.view.isMirrored"), true);
    assert.equal(await browser.ask("document.querySelector('[data-act=below]').getAttribute('aria-pressed')"), "true");
    assert.deepEqual(browser.complaints(), []);
  });
});
