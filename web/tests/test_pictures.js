// Parts of the page without a browser: PBM files, pictures beside the layers, conversions, regions in the making.

import assert from "node:assert/strict";
import { Opened, difference, windowOf } from "../worker/opened.js";
import { chances, pbm, square } from "../../tools/tests/pictures.js";
import { convertedOf, firstChoices } from "../worker/converting.js";
import { isPbm, readPbm } from "../bytes/pbm.js";
import { suite, test } from "../../tools/tests/harness.js";
import { seen } from "../board/units.js";

const bytesOf = (text) => new TextEncoder().encode(text);

// What the browser has and node has not.
globalThis.ImageData ??= class {
  constructor(width, height) {
    Object.assign(this, { width, height, data: new Uint8ClampedArray(4 * width * height) });
  }
};

suite("PBM files", () => {
  test("with comments between their words", () => {
    const { width, height, stride, bits } = readPbm(new Uint8Array([...bytesOf("P4 # a\n# b\n 3\t1 "), 0x3f]));
    // The bits behind the third column are no pixels.
    assert.deepEqual([width, height, stride, [...bits]], [3, 1, 1, [0x20]]);
  });
  test("that are none", () => {
    assert.deepEqual(["P4\n1 1\nx", "P4", "P1\n1 1\n0\n", "%FSLAX46Y46*%"].map((text) => isPbm(bytesOf(text))),
      [true, false, false, false]);
    for (const [text, why] of [["P1\n1 1\n0\n", /no raw PBM/], ["P4\n40 30\nx", /cut short/], ["P4\n0 1\n", /no numbers/]]) {
      assert.throws(() => readPbm(bytesOf(text)), why);
    }
  });
});

suite("pictures beside the layers", () => {
  const opened = (width, height, isBlack, line) => new Opened(readPbm(pbm(width, height, isBlack)), line);
  const alpha = ({ image }, column, row) => image.data[4 * (row * image.width + column) + 3];

  test("are drawn where they lie, each square as dark as it is black", () => {
    const chance = chances(20), width = 203, height = 131, pitch = 1000;
    const black = new Set(Array.from({ length: width * height }, (_, at) => at).filter(() => chance() < 0.4));
    const picture = opened(width, height, (column, row) => black.has(row * width + column), `window -5000 2000 ${pitch} ${width} ${height}`);
    const top = 2000 + height * pitch;
    for (const step of [1, 2, 3, 7, 8, 16, 40]) {
      const view = { left: 20000, top: 90000, right: 150000, low: 10000, pitch: step * pitch + 400 };
      const part = picture.partIn(view, "#ff8040");
      assert.equal(part.pitch, step * pitch);
      assert.ok(part.left <= view.left && part.top >= view.top);
      for (let row = 0; row < part.image.height; row += 3) {
        for (let column = 0; column < part.image.width; column += 2) {
          let count = 0;
          const left = Math.round((part.left + 5000) / pitch) + column * step, upper = Math.round((top - part.top) / pitch) + row * step;
          for (let y = upper; y < Math.min(upper + step, height); y++) {
            for (let x = left; x < Math.min(left + step, width); x++) count += black.has(y * width + x);
          }
          const wanted = count ? Math.max(96, Math.round(255 * count / step ** 2)) : 0;
          assert.equal(alpha(part, column, row), wanted, `${step} ${column} ${row}`);
        }
      }
    }
    assert.deepEqual([...picture.partIn({ left: 0, top: 90000, right: 9e5, low: 0, pitch: 1e6 }, "#ff8040").image.data.subarray(0, 3)],
      [0xff, 0x80, 0x40]);
    assert.equal(picture.partIn({ left: 1e6, top: 2e6, right: 2e6, low: 1e6, pitch: 1000 }, "#ffffff"), null);
  });

  test("a large one is quick", () => {
    const side = 10000, picture = new Opened(readPbm(square(side, 2000, 6000)), `window 0 0 10000 ${side} ${side}`);
    const started = Date.now();
    const part = picture.partIn({ left: 0, top: 1e8, right: 1e8, low: 0, pitch: 1e8 / 800 }, "#ffffff");
    assert.ok(part.image.width >= 800 && Date.now() - started < 5000);
  });

  test("the difference of two, and where it is", () => {
    const line = "window 0 0 100 300 200", first = new Set(["7 9"]), second = new Set(["200 150", "299 199"]);
    const of = (own) => readPbm(pbm(300, 200, (column, row) => own.has(`${column} ${row}`) || column < 100 && row > 20 && row < 30));
    const { parts, box } = difference(of(first), of(second), line);
    assert.deepEqual(parts.map(({ count }) => count), [900, 1, 2]);
    // To whole bytes of a row: from column 0 to 304, rows 9 to 199.
    assert.deepEqual(box, { left: 0, right: 30400, low: 0, high: 20000 - 900 });
    assert.equal(difference(of(first), of(first), line).box, null);
    assert.deepEqual(windowOf(line), { left: 0, low: 0, pitch: 100, width: 300, height: 200 });
  });
});

suite("conversions", () => {
  const gerber = bytesOf("%FSLAX36Y36*%\n%MOMM*%\n%AMRotRect*21,1,$1,$2,0,0,$3*%\n%ADD10RotRect,1.0X0.5X30.0*%\nD10*\nX0Y0D03*\nM02*\n");
  const drill = bytesOf("M48\nT01C0.800\n%\nT01\nX010000Y020000\nM30\n");

  test("to the nearest nm, where that alone is a way", () => {
    assert.deepEqual(firstChoices("gerber", gerber), { nearest: true });
    assert.ok(convertedOf("gerber", gerber).refusals.length);
    assert.match(convertedOf("gerber", gerber, { nearest: true }).changes.join(), /rounded/);
    assert.equal(convertedOf("gerber", bytesOf("%FSLAX46Y46*%\n%MOMM*%\n%ADD10C,1*%\nD10*\nX0Y0D03*\nM02*\n")), null);
  });

  test("of a drill file by what a person says", () => {
    assert.ok(convertedOf("drill", drill).refusals.length);
    const { bytes } = convertedOf("drill", drill, { unit: "mm", digits: "3:3", zeros: "leading", tools: "1=0.9mm", report: null });
    assert.match(new TextDecoder().decode(bytes), /T0?1C0\.9[\s\S]*X10\.0*Y20\.0/);
    assert.deepEqual(convertedOf("drill", drill, { digits: "x" }).refusals, ["digits: two are wanted, as 2:4"]);
    assert.match(convertedOf("drill", drill, { tools: "1:2" }).refusals[0], /tool 1:2: a number and a diameter/);
  });
});

suite("items in the making", () => {
  test("a region with an arc, and a whole circle", async () => {
    const values = { "new-polarity": "dark", "new-direction": "ccw", "new-turn": "r0" };
    globalThis.document = { getElementById: (id) => ({ value: values[id] }) };
    try {
      const { Making } = await import("../machine/drawing_tools.js");
      const region = new Making("region");
      assert.deepEqual([region.add({ x: 0, y: 0 }), region.add({ x: 4e6, y: 0 }), region.add({ x: 4e6, y: 1e6 }, true)],
        [null, null, null]);
      assert.equal(region.preview({ x: 4e6, y: 3e6 }), "region dark 0 0 l 4000000 0 ccw 4000000 2000000 4000000 1000000 l 0 0");
      region.add({ x: 4e6, y: 3e6 });
      assert.equal(region.end(), "region dark 0 0 l 4000000 0 ccw 4000000 2000000 4000000 1000000 l 0 0");
      region.add({ x: 0, y: 0 });
      assert.equal(region.end(), null);
      region.add({ x: 1e6, y: 0 }, true);
      region.add({ x: 1000, y: 0 });
      assert.equal(region.end(), "region dark 0 0 ccw 0 0 1000000 0");
    } finally {
      delete globalThis.document;
    }
  });
});

suite("colours", () => {
  test("nearly white ones are darker on a light board", () => {
    assert.equal(seen("#ffffff", false), "#ffffff");
    assert.equal(seen("#ffffff", true), "#474747");
    assert.equal(seen("#2040c0", true), "#2040c0");
  });
});
