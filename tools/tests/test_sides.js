// Both sides of a board as tools/board draws them: the files, what lacks, and the page.

import assert from "node:assert/strict";
import { cpSync, existsSync, readFileSync, readdirSync, rmSync, writeFileSync } from "node:fs";
import { join } from "node:path";
import { inflateSync } from "node:zlib";
import { fileFunction } from "../../web/board/layer_functions.js";
import { blacken, white } from "../../web/materials/bits.js";
import { coloursOf } from "../../web/materials/colours.js";
import { MATERIALS, nibbleRows } from "../../web/materials/materials.js";
import { outlineBits } from "../../web/materials/outline_bits.js";
import { reduced } from "../../web/materials/reduced.js";
import { svgOf } from "../../web/materials/svg.js";
import { readPbm } from "../../web/bytes/pbm.js";
import { windowLine } from "../../web/board/windows.js";
import { AskedLayer } from "../lib/asked_layer.js";
import { pageOf } from "../lib/pages.js";
import { pngOfMaterials, pngWithAlpha } from "../lib/png.js";
import { skip, suite, test } from "./harness.js";
import { Png, chances, pbm } from "./pictures.js";
import { plainMaterials } from "./plain_materials.js";
import { box, drill, draw, flash, gerber, region, write } from "./small_boards.js";
import { PROGRAM, REPOSITORY, needProgram, newRoom, runProgram, runTool } from "./support.js";

// The chunks of a PNG file, by their kinds.
function chunksOf(file) {
  const found = new Map();
  for (let at = 8; at < file.length;) {
    const length = file.readUInt32BE(at), kind = file.toString("latin1", at + 4, at + 8);
    found.set(kind, file.subarray(at + 8, at + 8 + length));
    at += 12 + length;
  }
  return found;
}

// The numbers of a PNG file of four bits a pixel, by rows, and its colours.
function numbersOf(file) {
  const chunks = chunksOf(file), head = chunks.get("IHDR"), [width, height] = [head.readUInt32BE(0), head.readUInt32BE(4)];
  assert.deepEqual([...head.subarray(8)], [4, 3, 0, 0, 0]);
  const data = inflateSync(chunks.get("IDAT")), bytes = Math.ceil(width / 2), colours = chunks.get("PLTE").toString("hex").match(/.{6}/g);
  const rows = Array.from({ length: height }, (_, y) => {
    assert.equal(data[y * (bytes + 1)], 0);
    return Array.from({ length: width }, (__, x) => data[y * (bytes + 1) + 1 + (x >> 1)] >> (x & 1 ? 0 : 4) & 15);
  });
  return { width, height, rows, colours: colours.map((colour) => `#${colour}`), clear: [...chunks.get("tRNS")],
    lengths: [...chunks.get("pHYs")] };
}

// Materials at random.
function randomMaterials(chance, width, height) {
  const planes = [0, 1, 2].map(() => white(width, height)), numbers = [];
  for (let y = 0; y < height; y++) {
    numbers.push(Array.from({ length: width }, (_, x) => {
      const number = Math.floor(chance() * MATERIALS.length);
      planes.forEach((plane, bit) => number >> bit & 1 && blacken(plane, y, x, x + 1));
      return number;
    }));
  }
  return { numbers, materials: { width, height, planes: /** @type {*} */ (planes) } };
}

const COLOURS = coloursOf("green", "gold");

suite("files of a side", () => {
  test("a PNG file has each pixel's number, the palette, and the side of a pixel", () => {
    const chance = chances(2);
    for (const [width, height] of [[1, 1], [2, 3], [31, 2], [32, 2], [33, 5], [67, 4]]) {
      const { numbers, materials } = randomMaterials(chance, width, height);
      const file = numbersOf(pngOfMaterials({ width, height, pitch: 25_400 }, nibbleRows(materials, 1), COLOURS));
      // 39,370 pixels a metre, along both sides.
      assert.deepEqual(file, { width, height, rows: numbers, colours: COLOURS, clear: [0], lengths: [0, 0, 0x99, 0xca, 0, 0, 0x99, 0xca, 1] });
    }
  });

  test("an SVG file has its size in mm, and another program draws its pixels", () => {
    const width = 37, height = 20, { numbers, materials } = randomMaterials(chances(4), width, height), folder = newRoom();
    const png = pngOfMaterials({ width, height, pitch: 25_400 }, nibbleRows(materials, 1), COLOURS);
    const svg = svgOf({ width, height, pitch: 25_400 }, "a <board> & more", png.toString("base64"));
    assert.match(svg, / width="0\.9398mm" height="0\.508mm" viewBox="0 0 37 20"/);
    assert.match(svg, /<title>a &#60;board&#62; &#38; more<\/title>/);
    if (!existsSync("/usr/bin/rsvg-convert")) skip("rsvg-convert is not installed: Debian's package librsvg2-bin has it");
    writeFileSync(join(folder, "side.svg"), svg);
    const done = runProgram("rsvg-convert", ["-w", 37, "-h", 20, "-b", "#010203", "-o", "drawn.png", "side.svg"], folder);
    assert.equal(done.status, 0, done.stderr);
    const drawn = new Png(readFileSync(join(folder, "drawn.png")));
    numbers.forEach((row, y) => row.forEach((number, x) => {
      assert.equal(`#${drawn.colour(x, y)}`, number ? COLOURS[number] : "#010203", `${x} ${y}`);
    }));
  });

  test("a small picture has the mean of each square", () => {
    const chance = chances(6);
    for (const [width, height, most] of [[10, 7, 20], [10, 7, 5], [33, 65, 16], [64, 3, 1]]) {
      const { numbers, materials } = randomMaterials(chance, width, height), step = Math.max(1, Math.ceil(Math.max(width, height) / most));
      const small = reduced(nibbleRows(materials), width, height, COLOURS, most);
      assert.deepEqual([small.width, small.height], [Math.ceil(width / step), Math.ceil(height / step)]);
      for (let y = 0; y < small.height; y++) {
        for (let x = 0; x < small.width; x++) {
          const all = numbers.slice(y * step, (y + 1) * step).flatMap((row) => row.slice(x * step, (x + 1) * step)), there = all.filter((number) => number);
          const mean = (channel) => there.reduce((sum, number) => sum + Number.parseInt(COLOURS[number].slice(1 + 2 * channel, 3 + 2 * channel), 16), 0) / there.length;
          const wanted = there.length ? [mean(0), mean(1), mean(2), 255 * there.length / all.length].map(Math.round) : [0, 0, 0, 0];
          assert.deepEqual([...small.pixels.subarray(4 * (y * small.width + x), 4 * (y * small.width + x) + 4)], wanted, `${x} ${y}`);
        }
      }
      assert.ok(pngWithAlpha(small).length > 60);
    }
  });
});

suite("the picture of an outline", () => {
  const window = { x: 0, y: 0, pitch: 100_000, width: 40, height: 30 }, whole = pbm(40, 30, (column, row) => column < 3 && row < 3);
  const corners = [[1, 1], [3, 1], [3, 2], [1, 2]].map((place) => place.map((mm) => mm * 1e6));
  const sides = corners.map((corner, at) => `draw 10 ${corner.join(" ")} ${corners[(at + 1) % 4].join(" ")} r0 dark`);
  const countOf = (items) => {
    const { words } = outlineBits(items, readPbm(whole), window);
    return words.reduce((sum, word) => sum + word.toString(2).replaceAll("0", "").length, 0);
  };

  test("has the middles of closed lines alone, if there is no other item", () => {
    assert.equal(countOf(sides), 60);
    assert.equal(countOf(["region dark 1000000 1000000 l 3000000 1000000 l 3000000 2000000 l 1000000 2000000 l 1000000 1000000"]), 60);
    assert.equal(countOf(sides.slice(1)), 9);
    assert.equal(countOf([...sides, "flash 10 0 0 r0 dark"]), 69);
    assert.equal(countOf([...sides, "draw 10 0 0 500000 0 r0 dark"]), 69);
    assert.equal(countOf([...sides, sides[0].replace("dark", "clear")]), 69);
    assert.equal(countOf([]), 0);
  });
});

// What stands for the page.
const PAGE = '<meta content="default-src \'none\'; style-src x"><nav id="left" class="side">\n<p>a panel</p></nav>'
  + '<script type="application/json" id="contents">null</script>\n';

suite("the page", () => {
  test("has a place for the pictures, and a policy that they join", () => {
    const folder = newRoom(), page = join(folder, "page.html"), png = Buffer.from("a picture");
    const [template, build] = ["page/index.html", "building/build.js"].map((name) => readFileSync(join(REPOSITORY, "web", name), "utf8"));
    assert.ok(build.includes('const policy = ["default-src \'none\'", '));
    writeFileSync(page, template.replace("{policy}", "default-src 'none'; script-src x").replace("{contents}", "null"));
    const written = pageOf(page, { title: "board", files: [] }, [{ title: "the top", png }]), [left] = written.slice(written.indexOf('<nav id="left"')).split("<h2>");
    assert.ok(left.includes(`<img width="100%" alt="the top" title="the top" src="data:image/png;base64,${png.toString("base64")}">`));
    assert.ok(written.includes("content=\"default-src 'none'; img-src data:; script-src x\""));
  });
});

// Runs tools/board into a folder; gives what it prints as JSON, and that folder.
function drawnBoard(folder, words = [], status = 0) {
  needProgram();
  const room = newRoom(), out = join(room, "made"), page = join(room, "camplot.html");
  writeFileSync(page, PAGE);
  const done = runTool("board", [folder, "--out", out, "--page", page, "--camplot", PROGRAM, ...words, "--json"]);
  assert.equal(done.status, status, done.stderr);
  return { told: JSON.parse(done.stdout), out };
}

const bytesOfBits = ({ width, height, stride, words }) => readPbm(pbm(width, height, (column, row) => {
  return (words[row * stride + (column >> 5)] >>> (31 - (column & 31)) & 1) === 1;
}));

// The picture of a drill file's text without the holes of some tools.
function pictureWithout(text, tools, window) {
  let tool = 0;
  const lines = text.split("\n").filter((line) => {
    tool = Number(/^T(\d+)$/.exec(line)?.[1] ?? tool);
    return !tools.includes(tool) || !line.startsWith("X");
  });
  const it = new AskedLayer("drill", Buffer.from(lines.join("\n")));
  assert.ok(it.isLoaded && it.run(windowLine(window)) && it.run("plot it it.pbm"));
  return readPbm(it.station.file);
}

// The layers that were plotted, as the plain program takes them. `unplated` are tools of holes that their file calls not plated.
function plainLayers({ told, out }, unplated) {
  return told.layers.filter(({ picture }) => picture !== null).flatMap(({ name, kind, picture }) => {
    const bytes = readFileSync(join(out, "files", `${name}.${kind === "drill" ? "drl" : "gbr"}`)), shows = name.replace(/-\d+$/, "");
    const plotted = readPbm(readFileSync(join(out, picture))), said = fileFunction(bytes);
    if (shows === "holes" && unplated.length) {
      const text = bytes.toString("latin1"), others = [...text.matchAll(/^T(\d+)C/gm)].map(([, number]) => Number(number)).filter((number) => !unplated.includes(number));
      return [{ shows, said, picture: pictureWithout(text, unplated, told.window) },
        { shows: "nonplated", said: null, picture: pictureWithout(text, others, told.window) }];
    }
    const isOutline = shows === "outline";
    return [{ shows, said, picture: isOutline ? bytesOfBits(outlineBits(new AskedLayer(kind, bytes).items(), plotted, told.window)) : plotted }];
  });
}

// Each pixel of the PNG files next to the plain program, and how many of each material there are.
function compareFiles(made, unplated = []) {
  const layers = plainLayers(made, unplated), counts = new Map(MATERIALS.map((name) => [name, 0]));
  for (const side of /** @type {const} */ (["top", "bottom"])) {
    const { rows } = numbersOf(readFileSync(join(made.out, `${side}.png`))), plain = plainMaterials(layers, side, made.told.window.pitch);
    assert.deepEqual([rows.length, rows[0].length], [plain.length, plain[0].length]);
    plain.forEach((row, y) => row.forEach((name, x) => {
      if (MATERIALS[rows[y][x]] !== name) assert.fail(`${side} ${x} ${y}: ${MATERIALS[rows[y][x]]}, and ${name} by the plain program`);
      counts.set(name, counts.get(name) + 1);
    }));
  }
  return counts;
}

const EXAMPLES = join(REPOSITORY, "examples");

suite("tools/board", () => {
  const boards = readdirSync(EXAMPLES).filter((name) => readdirSync(join(EXAMPLES, name)).some((file) => /\.gbr$/.test(file)));
  for (const name of boards) {
    test(`draws each pixel of examples/${name} as the plain program`, () => {
      const made = drawnBoard(join(EXAMPLES, name), ["--pitch", "50um"], name === "kicad_angles" ? 1 : 0);
      if (name === "one_flash") {
        assert.match(made.told.lacking, /^the sides are not drawn: no layer of copper, mask, /);
        return;
      }
      const counts = compareFiles(made, name === "blinker" ? [3, 4] : []);
      if (name !== "kicad") return;
      for (const material of MATERIALS.filter((it) => it !== "laminate")) assert.ok(counts.get(material) > 100, `${counts.get(material)} of ${material}`);
    });
  }

  test("draws holes that end inside on the side where they open, and no others", () => {
    const folder = newRoom(), hole = (at) => [{ diameter: 1, hits: [at] }];
    write(folder, {
      "a-F_Cu.gbr": gerber("Copper,L1,Top", ["C,0.1"], flash(10, [1, 1])), "a-In1_Cu.gbr": gerber("Copper,L2,Inr", ["C,0.1"], flash(10, [1, 1])),
      "a-B_Cu.gbr": gerber("Copper,L4,Bot", ["C,0.1"], flash(10, [1, 1])),
      "a-Edge_Cuts.gbr": gerber("Profile,NP", ["C,0.05"], draw(10, ...box(0, 0, 10, 6), [0, 0])),
      "through.drl": drill("Plated,1,4,PTH", hole([2, 3])), "front.drl": drill("Plated,1,2,Blind", hole([4, 3])),
      "back.drl": drill("Plated,3,4,Blind", hole([6, 3])), "inside.drl": drill("Plated,2,3,Buried", hole([8, 3])),
    });
    const made = drawnBoard(folder, ["--pitch", "50um"]), at = (side, x) => {
      const { rows, width } = numbersOf(readFileSync(join(made.out, `${side}.png`))), column = Math.floor((x * 1e6 - made.told.window.x) / 50_000);
      return MATERIALS[rows[Math.floor(rows.length / 2)][side === "top" ? column : width - 1 - column]];
    };
    compareFiles(made);
    assert.deepEqual([2.1, 4.1, 6.1, 8.1].map((x) => at("top", x)), ["nothing", "copper", "laminate", "laminate"]);
    assert.deepEqual([2.1, 4.1, 6.1, 8.1].map((x) => at("bottom", x)), ["nothing", "laminate", "copper", "laminate"]);
    assert.deepEqual(made.told.sides.map(({ lacks }) => lacks), [1, 2].map(() => ["no mask: bare copper is shown", "no silkscreen"]));
  });

  test("draws no wall around the holes that a file calls not plated", () => {
    const folder = newRoom(), before = "; #@! TA.AperFunction,NonPlated,NPTH,ComponentDrill";
    const tools = [{ diameter: 1, hits: [[2, 3]] }, { diameter: 1.2, before, hits: [[6, 3], [8, 3]] }];
    write(folder, { "a-F_Cu.gbr": gerber("Copper,L1,Top", ["C,0.1"], region(...box(0, 0, 10, 6))), "a.drl": drill("MixedPlating,1,2", tools) });
    const made = drawnBoard(folder, ["--pitch", "50um"]), { rows } = numbersOf(readFileSync(join(made.out, "top.png")));
    const walls = (from, to) => rows.flatMap((row) => row.slice(from, to)).filter((number) => MATERIALS[number] === "plated wall").length;
    assert.ok(walls(0, 100) > 40);
    assert.equal(walls(100, 220), 0);
    assert.equal(made.told.lacking, "no outline: the board is the box of all layers");
  });

  test("draws a thin outline of which no pixel is black, to the middle of its line", () => {
    for (const line of [0.000001, 0.4]) {
      const folder = newRoom(), outline = gerber("Profile,NP", [`C,${line.toFixed(6)}`], draw(10, ...box(0, 0, 10, 6), [0, 0]));
      write(folder, { "a-F_Cu.gbr": gerber("Copper,L1,Top", ["C,0.1"], flash(10, [5, 3])), "a-Edge_Cuts.gbr": outline });
      const made = drawnBoard(folder, ["--pitch", "50um"]), { rows } = numbersOf(readFileSync(join(made.out, "top.png")));
      // 10 by 6 mm, and half a pixel at each side.
      assert.equal(Math.max(...rows.map((row) => row.filter((number) => number).length)), 201);
      assert.equal(rows.filter((row) => row.some((number) => number)).length, 121);
      assert.equal(made.told.lacking, null);
    }
  });

  test("draws the files as they are, whatever lines of the user's own plot over them", () => {
    const folder = join(newRoom(), "kicad");
    cpSync(join(EXAMPLES, "kicad"), folder, { recursive: true });
    writeFileSync(join(folder, "edits"), "delete top 6\nplot top top.pbm\n");
    const [plain, edited] = [[], ["--edits", join(folder, "edits")]].map((words) => drawnBoard(folder, words));
    assert.notDeepEqual(readFileSync(join(edited.out, "top.pbm")), readFileSync(join(plain.out, "top.pbm")));
    assert.deepEqual(readFileSync(join(edited.out, "top.png")), readFileSync(join(plain.out, "top.png")));
  });

  test("takes colours, and tells what it draws and what lacks", () => {
    needProgram();
    const folder = join(newRoom(), "kicad"), out = join(folder, "board");
    cpSync(join(EXAMPLES, "kicad"), folder, { recursive: true });
    for (const name of readdirSync(folder).filter((file) => /B_Mask|Edge_Cuts/.test(file))) rmSync(join(folder, name));
    const call = (...words) => runTool("board", [folder, "--camplot", PROGRAM, "--page", join(folder, "none.html"), ...words]);
    writeFileSync(join(folder, "none.html"), PAGE);
    const { stdout } = call("--mask", "purple", "--finish", "gold");
    assert.deepEqual(stdout.split("\n").slice(-5), ["no outline: the board is the box of all layers",
      "top.png and top.svg: the top as it will be made, mask purple, finish gold",
      "bottom.png and bottom.svg: the bottom as it will be made, seen from below, mask purple, finish gold; no mask: bare copper is shown; "
      + "no silkscreen", `the page: ${join(out, "index.html")}`, ""]);
    assert.deepEqual(numbersOf(readFileSync(join(out, "top.png"))).colours, coloursOf("purple", "gold"));
    const png = readFileSync(join(out, "bottom.png")).toString("base64");
    assert.ok(readFileSync(join(out, "bottom.svg"), "utf8").includes(png));
    assert.match(call("--mask", "pink").stderr, /--mask pink: choose green, red, blue, black, white, purple or yellow/);
  });

  test("shows both sides on its page, whose policy allows pictures inside it alone", () => {
    const { out } = drawnBoard(join(EXAMPLES, "kicad")), page = readFileSync(join(out, "index.html"), "utf8");
    assert.ok(page.startsWith('<meta content="default-src \'none\'; img-src data:; style-src x"><nav id="left" class="side">\n<section id="sides">'));
    const images = [...page.matchAll(/<img width="100%" alt="([^"]*)" title="\1" src="data:image\/png;base64,([^"]*)">/g)];
    assert.deepEqual(images.map(([, alt]) => alt), ["the top as it will be made", "the bottom as it will be made, seen from below"]);
    for (const [, , packed] of images) {
      const { width, channels } = new Png(Buffer.from(packed, "base64"));
      assert.deepEqual([width <= 480 && width > 240, channels], [true, 4]);
    }
  });
});
