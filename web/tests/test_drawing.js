// Drawing that is much work: the view moves while it is drawn anew, and says how far a long drawing is.

import assert from "node:assert/strict";
import { readFileSync, writeFileSync } from "node:fs";
import { join } from "node:path";
import { builtPage, clickAt, gerber, give, openPage, room, settle, text } from "./support.js";
import { suite, test } from "../../tools/tests/harness.js";

const idle = (browser) => browser.ask("camplot.idle()");

// 20 layers of 400 pads and draws each.
const layers = () => Array.from({ length: 20 }, (_, at) => ({ name: at === 0 ? "board-F_Cu.gbr" : `board-In${at}_Cu.gbr`,
  bytes: gerber(...Array.from({ length: 400 }, (__, k) => {
    const x = k % 20 * 4000000 + at * 150000, y = Math.floor(k / 20) * 4000000;
    return at % 2 ? `X${x}Y${y}D02*\nX${x + 2000000}Y${y}D01*` : `X${x}Y${y}D03*`;
  })) }));

async function withLayers(options) {
  const browser = await openPage(options);
  await give(browser, layers());
  await browser.ask("camplot.machine.send({ kind: 'show', name: null, isShown: true })");
  await settle(browser);
  return browser;
}

// The pixels of the board's picture, as numbers, and as far as it has any of the layers' own pictures painted one by one.
const COMPARED = `(() => {
  const { view } = camplot, { width, height } = view.canvas;
  const alone = new OffscreenCanvas(width, height).getContext("2d", { alpha: false });
  const style = getComputedStyle(view.canvas);
  alone.fillStyle = style.getPropertyValue("--board");
  alone.fillRect(0, 0, width, height);
  for (const { name, opacity } of camplot.state.layers) {
    const { bitmap, left, top, pitch } = view.pictures.get(name);
    alone.globalAlpha = opacity;
    if (bitmap) alone.drawImage(bitmap, Math.round((left - view.left) / view.pitch), Math.round((view.top - top) / view.pitch));
  }
  const edge = 22 * view.density, sides = [edge, edge, width - edge, height - edge];
  const [one, other] = [alone, view.context].map((context) => context.getImageData(...sides).data);
  let differing = 0, greatest = 0;
  for (let at = 0; at < one.length; at++) {
    const far = Math.abs(one[at] - other[at]);
    if (far) differing++;
    greatest = Math.max(greatest, far);
  }
  return { differing, greatest, count: one.length };
})()`;

suite("20 layers", () => {
  test("composed, they look as one over the other", async () => {
    const browser = await withLayers({ width: 1280, height: 800, scale: 2 });
    await browser.ask("camplot.view.zoom(1.7, 500, 400)");
    await settle(browser);
    const { differing, greatest, count } = await browser.ask(COMPARED);
    assert.equal(greatest, 0, `${differing} of ${count}`);
    // Another opacity, a layer that is hidden, and an edit are seen.
    const before = await browser.ask("camplot.view.composed.version");
    await browser.ask("camplot.machine.send({ kind: 'layer', name: 'top', changes: { opacity: 0.3 } })");
    await browser.ask("camplot.run([`move ${camplot.state.layers[3].name} 0 1000000 0`])");
    await settle(browser);
    assert.equal((await browser.ask(COMPARED)).greatest, 0);
    assert.ok(await browser.ask("camplot.view.composed.version") > before);
  });

  test("a pan moves one picture, whatever is drawn behind it", async () => {
    const browser = await withLayers({ width: 1280, height: 800, scale: 2 });
    // How many pixels the page's thread draws in a frame, while pictures of another part of the board come, of those of one
    // picture; and how long it needs, which other work on the machine makes longer.
    const { shown, frames, pictures, longest, spent } = await browser.ask(`(async () => {
      const { view } = camplot, { context, frames } = view, paint = view.paintNow.bind(view), spent = [];
      let pixels = 0;
      context.drawImage = (...words) => {
        pixels += words[0].width * words[0].height;
        CanvasRenderingContext2D.prototype.drawImage.apply(context, words);
      };
      view.paintNow = () => { const start = performance.now(); paint(); spent.push(performance.now() - start); };
      const start = performance.now();
      while (performance.now() - start < 2000) {
        view.pan(3, 2);
        await new Promise(requestAnimationFrame);
      }
      delete view.paintNow;
      delete context.drawImage;
      const { width, height } = view.composed.shown;
      spent.sort((one, other) => one - other);
      return { shown: view.frames - frames, frames: spent.length, pictures: pixels / spent.length / width / height, longest: spent.at(-1),
        spent: spent[Math.floor(spent.length / 2)] };
    })()`);
    console.log(`page: 20 layers at twice the pixels: ${Math.round(shown / 2)} frames a second in a pan, ${frames} of ${shown} painted, ${
      spent.toFixed(1)} ms each, ${longest.toFixed(1)} ms the longest`);
    assert.ok(frames > 0 && pictures > 0.5 && pictures < 1.5, `${pictures} pictures in each of ${frames} frames`);
    await settle(browser);
    assert.equal((await browser.ask(COMPARED)).greatest, 0);
  });

  test("pictures that come while others are composed are shown behind these", async () => {
    const browser = await withLayers({ width: 1280, height: 800, scale: 2 });
    // Each band takes 20 ms more, so that an edit is drawn before all are made.
    await browser.ask(`(() => {
      const { composed } = camplot.view, makeBand = composed.makeBand.bind(composed);
      composed.makeBand = () => {
        for (const until = performance.now() + 20; performance.now() < until;);
        makeBand();
      };
      camplot.view.pan(300, 150);
    })()`);
    await browser.wait("camplot.view.isWhole && camplot.view.composed.making", 60);
    await browser.ask("camplot.run(['move top 0 1000000 0'])");
    await browser.wait("camplot.view.isWhole && !camplot.view.isWanted", 60);
    assert.ok(await browser.ask("camplot.view.isStale"));
    await browser.wait("!camplot.view.isPainting", 60);
    assert.equal((await browser.ask(COMPARED)).greatest, 0);
  });

  test("composed elsewhere, they are composed again where the view comes back to", async () => {
    const browser = await withLayers({ width: 1280, height: 800 });
    // The view goes away and looks otherwise before the worker is asked for what is there, and then comes back.
    const WAYS = [["view.pan(9000, 0)", "view.pan(-9000, 0)"], ["view.zoom(0.5, 600, 400)", "view.show(was)"]];
    for (const [away, back] of WAYS) {
      await browser.ask(`(() => {
        const { view } = camplot, { left, top, pitch } = view;
        globalThis.was = { left, top, pitch };
        view.request = () => {};
        ${away};
        view.change();
      })()`);
      await browser.wait("camplot.view.composed.version === camplot.view.version && !camplot.view.composed.making", 60);
      await browser.ask(`(() => { const { view } = camplot; ${back}; delete view.request; view.renew(); })()`);
      await settle(browser);
      assert.equal((await browser.ask(COMPARED)).greatest, 0, away);
    }
  });

  test("a long drawing says how far it is, and can be stopped", async () => {
    // A page whose worker needs 200 ms for each layer.
    const page = join(room(), "slow.html"), method = "\ndrawWhole(view, layer) {\n", text = readFileSync(builtPage(), "utf8");
    assert.equal(text.split(method).length, 2);
    writeFileSync(page, text.replace(method, `${method}for (const until = performance.now() + 200; performance.now() < until;);\n`));
    const browser = await withLayers({ page });
    await browser.ask("camplot.view.pan(300, 150)");
    await browser.wait("!document.getElementById('drawing-stop').hidden", 60);
    assert.match(await browser.ask("document.getElementById('drawing-words').textContent"), /^drawing \d+ of 20 layers/);
    assert.equal(await browser.ask("camplot.view.isWhole"), false);
    await browser.ask("document.getElementById('drawing-stop').click()");
    await browser.wait("camplot.view.isWhole", 60);
    assert.equal(await browser.ask("document.getElementById('drawing').hidden"), true);
    // What comes next is drawn.
    await browser.ask("camplot.view.pan(-300, -150)");
    await settle(browser);
    assert.equal((await browser.ask(COMPARED)).greatest, 0);
  });
});

suite("a region of 100,000 sides", () => {
  // A comb, whose corners lie on two lines.
  const comb = () => {
    const rows = ["G36*", "X0Y0D02*"];
    for (let k = 1; k < 100000; k++) rows.push(`X${k * 600}Y${k % 2 ? 20000000 : 1000000}D01*`);
    rows.push("X60000000Y0D01*", "X0Y0D01*", "G37*");
    return rows.join("\n");
  };

  test("is picked: its words are cut, and the outline moves with the view", async () => {
    const browser = await openPage();
    await give(browser, [{ name: "comb.gtl", bytes: gerber(comb()) }]);
    await settle(browser);
    await clickAt(browser, 30000000, 500000);
    await idle(browser);
    assert.ok(await browser.ask("camplot.state.picked[0].words.length") > 1e6);
    for (const id of ["picked", "told", "script"]) assert.ok((await text(browser, id)).length < 3000, id);
    assert.match(await text(browser, "picked"), /^region with 100,001 corners, .*top 0, as the station has itregion dark 0 0 l .* \.\. \([\d,]+ letters\)/);
    await settle(browser);
    // How often the long path itself is stroked.
    const { shown, frames, strokes, spent } = await browser.ask(`(async () => {
      const { view } = camplot, before = view.frames, paint = view.paintNow.bind(view), spent = [];
      let strokes = 0;
      const kinds = [CanvasRenderingContext2D, OffscreenCanvasRenderingContext2D].map(({ prototype }) => prototype);
      const wholes = kinds.map((kind) => kind.stroke);
      kinds.forEach((kind, at) => { kind.stroke = function stroke(...words) {
        if (words.length) strokes++;
        wholes[at].apply(this, words);
      }; });
      view.paintNow = () => { const start = performance.now(); paint(); spent.push(performance.now() - start); };
      view.pan(1, 1);
      const start = performance.now();
      while (performance.now() - start < 2000) {
        view.pan(2, 1);
        await new Promise(requestAnimationFrame);
      }
      delete view.paintNow;
      kinds.forEach((kind, at) => { kind.stroke = wholes[at]; });
      spent.sort((one, other) => one - other);
      return { shown: view.frames - before, frames: spent.length, strokes, spent: spent[Math.floor(spent.length / 2)] };
    })()`);
    console.log(`page: a picked region of 100,000 sides: ${Math.round(shown / 2)} frames a second in a pan, ${frames} of ${
      shown} painted, ${spent.toFixed(1)} ms each`);
    assert.ok(frames > 2 && strokes <= frames / 2, `${strokes} strokes of the path in ${frames} frames`);
    // At rest it is drawn anew where it is.
    await browser.wait("camplot.marks.outlines.sheet.view[0] === camplot.view.left", 60);
  });
});
