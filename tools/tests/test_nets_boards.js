// tools/nets on boards: planted faults are found at their places and nothing else, and what it prints.

import assert from "node:assert/strict";
import { cpSync, mkdirSync, readFileSync, readdirSync, rmSync, writeFileSync } from "node:fs";
import { join } from "node:path";
import { recogniseFiles } from "../../web/board/layers.js";
import { inputs } from "../lib/inputs.js";
import { NetsBoard } from "../lib/nets_board.js";
import { compareWithFlood } from "./test_nets.js";
import { part, suite, test } from "./harness.js";
import { CASES, PROGRAM, REPOSITORY, needProgram, newRoom, runTool } from "./support.js";

const EXAMPLES = join(REPOSITORY, "examples"), MARKS = join(CASES, "nets", "marks");
const KICAD = join(EXAMPLES, "kicad"), FOUR = join(EXAMPLES, "four_layers");
const NETLISTS = new Map([[KICAD, join(KICAD, "nightlight.d356")], [FOUR, join(FOUR, "thermometer.d356")],
  [MARKS, join(MARKS, "marks.ipc")]]);
const PITCH = 10_000, TWO_PIXELS = 2 * PITCH / 1e6;

function nets(words, status = 0) {
  needProgram();
  const done = runTool("nets", [...words, "--camplot", PROGRAM]);
  assert.equal(done.status, status, done.stdout + done.stderr);
  return done.stdout + done.stderr;
}

const found = (words, status) => JSON.parse(nets([...words, "--json"], status));

function includes(text, part) {
  assert.ok(text.includes(part), `'${part}' is not in:\n${text}`);
}

function editsOf(...lines) {
  const path = join(newRoom(), "edits");
  writeFileSync(path, lines.map((line) => `${line}\n`).join(""));
  return path;
}

// What a board is compared with: its netlist, and its attributes.
const truths = (folder) => [["netlist", ["--ipc", NETLISTS.get(folder)]], ["attributes", []]];

function isNear(value, wanted, what) {
  assert.ok(Math.abs(Number(value) - wanted) <= TWO_PIXELS + 1e-9, `${what}: ${value} in place of ${wanted}`);
}

// Fails where there are other findings than so many opens and shorts.
function checkCounts({ opens, shorts, withoutCopper, withoutPoint }, wanted) {
  assert.deepEqual([opens.length, shorts.length, withoutCopper.length, withoutPoint.length], [...wanted, 0, 0]);
}

// A planted short is a draw of copper along x, between two heights.
const SHORTS = [
  { folder: KICAD, edit: "insert top 0 draw 18 114000000 -85000000 114000000 -90050000 r0 dark", x: 114,
    between: [-89.9, -85.15], nets: ["Net-(D1-A)", "Net-(Q1-B)"] },
  { folder: FOUR, edit: "insert top 0 draw 16 106000000 -85080000 106000000 -87620000 r0 dark", x: 106,
    between: [-87.495, -85.205], nets: ["/SDA", "/SCL"] },
];
// A deleted draw, and where the copper on both its sides ends.
const OPENS = [
  { folder: KICAD, edit: "delete top 30", net: "Net-(Q1-B)", ends: [{ x: 113.5, y: -94.6 }, { x: 113.5, y: -91.1 }], apart: 3.5 },
  { folder: FOUR, edit: "delete top 43", net: "/LED", ends: [{ x: 123.475 }, { x: 126.5875 }], apart: 3.1125 },
];
// A deleted hit of a via.
const HOLES = [
  { folder: KICAD, edit: "delete plated 1", net: "GND", x: 122.5, y: -82.5 },
  { folder: FOUR, edit: "delete plated 6", net: "/SCL", x: 114.5, y: -86.12 },
];

suite("boards", () => {
  test("undamaged ones are clean", () => {
    for (const folder of [KICAD, FOUR]) {
      for (const [name, words] of truths(folder)) {
        part(`${folder}, ${name}`, () => checkCounts(found([folder, ...words]), [0, 0]));
      }
    }
  });

  test("a planted short", () => {
    for (const { folder, edit, x, between: [low, high], nets: two } of SHORTS) {
      for (const [name, words] of truths(folder)) {
        part(`${folder}, ${name}`, () => {
          const told = found([folder, ...words, "--edits", editsOf(edit)], 1);
          checkCounts(told, [0, 1]);
          const [{ nets: shorted, touching: [{ place }] }] = told.shorts;
          assert.deepEqual(shorted.map(({ net }) => net.toUpperCase()).sort(), two.map((net) => net.toUpperCase()).sort());
          isNear(place.x, x, "x");
          assert.ok(Number(place.y) >= low - TWO_PIXELS && Number(place.y) <= high + TWO_PIXELS, place.y);
          assert.equal(place.layer, "top");
        });
      }
    }
  });

  test("a planted open", () => {
    for (const { folder, edit, net, ends, apart } of OPENS) {
      for (const [name, words] of truths(folder)) {
        part(`${folder}, ${name}`, () => {
          const told = found([folder, ...words, "--edits", editsOf(edit)], 1);
          checkCounts(told, [1, 0]);
          const [{ net: opened, parts, gaps: [gap] }] = told.opens;
          assert.equal(opened.toUpperCase(), net.toUpperCase());
          assert.deepEqual([parts.length, gap.kind, gap.from.layer], [2, "copper", "top"]);
          const places = [gap.from, gap.to].sort((one, other) => one.y - other.y || one.x - other.x);
          places.forEach((place, at) => {
            isNear(place.x, ends[at].x, "x");
            if (ends[at].y !== undefined) isNear(place.y, ends[at].y, "y");
          });
          isNear(gap.distance, apart, "apart");
        });
      }
    }
  });

  test("a missing via", () => {
    for (const { folder, edit, net, x, y } of HOLES) {
      for (const [name, words] of truths(folder)) {
        part(`${folder}, ${name}`, () => {
          const told = found([folder, ...words, "--edits", editsOf(edit)], 1);
          checkCounts(told, [1, 0]);
          assert.equal(told.opens[0].net.toUpperCase(), net.toUpperCase());
          for (const { kind, from, to } of told.opens[0].gaps) {
            assert.equal(kind, "hole");
            for (const place of [from, to]) {
              isNear(place.x, x, "x");
              isNear(place.y, y, "y");
            }
          }
        });
      }
    }
  });

  test("another origin, marks in holes, tools without plating, two pads without a net on one piece", () => {
    const told = nets([MARKS, "--ipc", NETLISTS.get(MARKS)]);
    includes(told, "7 of 7 on the centres of pads and holes, shifted by (5.000, 10.000) mm; 1 record 378 left out");
    includes(told, "1 hole of tools without plating left out");
    includes(told, "0 opens, 0 shorts, 0 points without copper, 1 piece of copper without a point");
    includes(nets([MARKS, "--ipc", NETLISTS.get(MARKS), "--shift", 5000000, 10000000]), "as given");
    includes(nets([MARKS, "--ipc", NETLISTS.get(MARKS), "--shift", 50000000, 0], 1), "7 points without copper");
    includes(nets([MARKS]), "0 opens, 0 shorts");
    assert.equal(found([MARKS]).nets, 4);
  });

  test("a netlist about another origin, or of another board", () => {
    const room = newRoom(), lines = readFileSync(NETLISTS.get(KICAD), "latin1").split("\n");
    const moved = (name, change) => {
      const path = join(room, name);
      writeFileSync(path, lines.map((line) => line.replace(/X([+-]\d{6})Y([+-]\d{6})/, (_, x, y) => {
        const [across, up] = change(Number(x), Number(y)).map(Math.round);
        return [["X", across], ["Y", up]].map(([axis, value]) => `${axis}${value < 0 ? "-" : "+"}${String(Math.abs(value)).padStart(6, "0")}`).join("");
      })).join("\n"));
      return path;
    };
    const count = "17 of 17 on the centres of pads and holes";
    /** @type {[name: string, change: (x: number, y: number) => number[], says: string][]} */
    const ways = [
      ["moved", (x, y) => [x + 394, y], "shifted by (-1.00"], ["mirrored", (x, y) => [100000 - x, y], "mirrored, left for right"],
      ["turned", (x, y) => [-y, x], "turned by 270 degrees"], ["in mm", (x, y) => [x * 2.54, y * 2.54], "read in 0.001 mm in place of 0.0001 inch"],
    ];
    for (const [name, change, says] of ways) {
      part(name, () => {
        const told = nets([KICAD, "--ipc", moved(name, change)]);
        includes(told, count);
        includes(told, says);
        includes(told, "0 opens, 0 shorts, 0 points without copper");
      });
    }
    includes(nets([KICAD, "--ipc", moved("other", (x, y) => [x + (y * 7919) % 400, y + (x * 104729) % 400])], 2), "less than nine of ten points lie on");
  });

  test("each board beside a flood fill", () => {
    needProgram();
    const folders = [...readdirSync(EXAMPLES).map((name) => join(EXAMPLES, name)), MARKS,
      ...readdirSync(join(CASES, "board")).map((name) => join(CASES, "board", name))];
    let count = 0;
    for (const folder of folders) {
      const { layers } = recogniseFiles(inputs([folder]).files, false);
      if (!layers.length) continue;
      let board = null;
      try {
        board = new NetsBoard(layers, [], PROGRAM);
      } catch {
        continue;
      }
      part(folder, () => {
        try {
          const window = board.window(50_000);
          const picture = ({ layer }) => board.picture(layer, window);
          compareWithFlood(board.stack.copper.map(picture), board.stack.holes.map((hole) => ({ picture: picture(hole),
            from: hole.from, to: hole.to })));
          count++;
        } finally {
          board.close();
        }
      });
    }
    assert.ok(count >= 5, `${count} boards`);
  });
});

suite("calls", () => {
  test("without a netlist and without attributes nets are listed by size", () => {
    const told = nets([join(CASES, "board", "fritzing")], 2);
    includes(told, "compared with nothing");
    const areas = [...told.matchAll(/^ *([\d.]+) mm²/gm)].map(([, area]) => Number(area));
    assert.ok(areas.length > 0);
    assert.deepEqual(areas, [...areas].sort((one, other) => other - one));
  });

  test("what a pitch hides is said, and --twice lists what differs", () => {
    includes(nets([KICAD, "--pitch", 50000]), "tracks and holes are at least 0.070711 mm wide and gaps wider than 0.050 mm");
    const same = nets([KICAD, "--pitch", 50000, "--twice"]);
    assert.equal(same.split("nothing differs").length, 3);
    // The tracks are 0.3 mm wide: at 0.9 mm a pixel they fall apart.
    const torn = nets([KICAD, "--ipc", NETLISTS.get(KICAD), "--pitch", 900000, "--twice"], 1);
    includes(torn, "what differs:");
    includes(torn, "no longer open: ");
  });

  test("--gap and --neck", () => {
    const none = found([KICAD, "--gap", "0.1", "--neck", "0.29"]);
    assert.deepEqual([none.gaps.length, none.necks.length], [0, 0]);
    const told = found([KICAD, "--edits", editsOf("insert top 0 draw 18 114000000 -85000000 114000000 -89600000 r0 dark"),
      "--gap", "0.2"], 1);
    assert.equal(told.gaps.length, 1);
    const [{ names, from, to, distance }] = told.gaps;
    assert.deepEqual(names.sort(), ["Net-(D1-A)", "Net-(Q1-B)"]);
    isNear(distance, 0.15, "distance");
    for (const place of [from, to]) isNear(place.x, 114, "x");
    isNear(Math.max(from.y, to.y), -89.75, "y");
    // The neck of a draw of 0.1 mm between two pads.
    const thin = found([FOUR, "--neck", "0.2", "--edits", editsOf("delete top 43",
      "insert top 0 region dark 123000000 -86900000 l 127000000 -86900000 l 127000000 -86800000 l 123000000 -86800000 l 123000000 -86900000")], 1);
    assert.equal(thin.necks.length, 1);
    isNear(thin.necks[0].width, 0.1, "width");
    isNear(thin.necks[0].place.y, -86.85, "y");
  });

  test("a picture of each finding", () => {
    const folder = join(newRoom(), "pictures");
    includes(nets([KICAD, "--edits", editsOf(SHORTS[0].edit, OPENS[0].edit), "--pictures", folder], 1), "pictures written into");
    const names = readdirSync(folder);
    assert.ok(names.some((name) => name.endsWith("-open.png")) && names.some((name) => name.endsWith("-short.png")));
    for (const name of names) assert.equal(readFileSync(join(folder, name)).subarray(1, 4).toString("latin1"), "PNG");
    includes(nets([KICAD, "--pictures", folder], 2), "exists already");
  });

  test("copper or holes that are missing", () => {
    includes(nets([join(EXAMPLES, "blinker")], 2), "copper 2 is not among the files: other files name it");
    const room = join(newRoom(), "board"), top = "nightlight-F_Cu.gbr", back = "nightlight-B_Cu.gbr";
    cpSync(KICAD, room, { recursive: true });
    const without = (name, act) => {
      rmSync(join(room, name));
      act();
      cpSync(join(KICAD, name), join(room, name));
    };
    const netlist = ["--ipc", NETLISTS.get(KICAD)];
    // Copper that only the netlist counts on.
    const plain = join(room, "plain.gbr");
    /** @type {[name: string, words: string[], says: string][]} */
    const cases = [[top, netlist, "copper 1 is not among the files: 17 points of the netlist lie on it"],
      [back, netlist, "copper 2 is not among the files: 8 points of the netlist lie on it"], [top, [], "copper 1"], [back, [], "copper 2"]];
    for (const [name, words, says] of cases) {
      part(`${name}, ${words.join(" ")}`, () => without(name, () => {
        includes(nets([room, ...words], 2), says);
        // (GND is joined on the bottom)
        const told = nets([room, ...words, "--partial"], name === back ? 1 : 0);
        includes(told, `missing: ${says}`);
        includes(told, `${name === back ? "1 open" : "0 opens"}, 0 shorts, 0 points without copper`);
      }));
    }
    // One that is not recognised, and is by its role; one that is refused.
    without(top, () => {
      cpSync(join(KICAD, top), plain);
      writeFileSync(plain, readFileSync(plain, "latin1").replace(/%TF.FileFunction[^%]*%\r?\n/, ""));
      includes(nets([room, ...netlist], 2), "what these show is not known: plain.gbr");
      includes(nets([room, ...netlist, "--role", "plain.gbr=top"]), "17 points, 17 of 17");
      includes(nets([room, ...netlist, "--role", "plain.gbr=side"], 2), "side is none of in1, in2 ..");
      rmSync(plain);
      writeFileSync(join(room, top), "%FSLAX46Y46*%%MOMM*%%ADD10C,0.1*%D10*X0Y0D03*");
      includes(nets([room, ...netlist], 2), "copper 1 is refused");
      includes(nets([room, ...netlist, "--partial"]), "0 opens, 0 shorts, 0 points without copper");
    });
    const drill = readdirSync(KICAD).find((name) => name.endsWith("-PTH.drl"));
    without(drill, () => includes(nets([room, ...netlist], 2), "plated holes are not among the files: 8 points of the netlist have one"));
  });

  test("calls that do not fit", () => {
    const room = newRoom(), broken = join(room, "broken.ipc"), empty = join(room, "empty");
    writeFileSync(broken, "P  UNITS CUST 0\n317GND\n999\n");
    mkdirSync(empty);
    for (const words of [[], [empty], [join(room, "nowhere")], [KICAD, "--ipc", join(room, "none")], [KICAD, "--pitch", 0],
      [KICAD, "--gap", "x"], [KICAD, "--neck", "0"], [KICAD, "--shift", 1, 1], [KICAD, "--edits", join(room, "none")],
      [join(CASES, "board", "refused")]]) {
      part(words.join(" "), () => nets(words, 2));
    }
    includes(nets([KICAD, "--ipc", broken], 2), `${broken}: line 2: the line has 6 characters`);
    const edits = editsOf("delete top 0", "delete top 99", "plot top none.pbm", "moove top 1 2 3");
    const told = nets([KICAD, "--edits", edits], 2);
    includes(told, `line 2 of ${edits}, at '99' (K): delete top 99\n  refused 61, no item: `);
    includes(told, `\nline 4 of ${edits}, at 'moove' (no command; did you mean move?): moove top 1 2 3\n  refused 80, bad line: `);
    const folder = join(room, "one");
    cpSync(KICAD, folder, { recursive: true });
    for (const name of readdirSync(folder)) if (name.endsWith(".gbr") && !name.includes("Edge")) rmSync(join(folder, name));
    includes(nets([folder], 2), "no layer of copper is among the files");
  });
});
