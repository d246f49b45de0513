// web/nets: nets by runs beside a plain flood fill, and netlists.

import assert from "node:assert/strict";
import { readFileSync } from "node:fs";
import { join } from "node:path";
import { isNetlist, readNetlist } from "../../web/nets/ipc.js";
import { netsOf } from "../../web/nets/nets.js";
import { runsOf } from "../../web/nets/runs.js";
import { readPbm } from "../../web/bytes/pbm.js";
import { flooded } from "./flood.js";
import { part, suite, test } from "./harness.js";
import { brokenNetlists, randomNetlist, recordOf } from "./netlists.js";
import { chances, pbm } from "./pictures.js";
import { REPOSITORY } from "./support.js";

const bytesOf = (text) => new TextEncoder().encode(text);

// A picture of noise, or of bars that cross, so that there are large pieces with many branches.
function randomPicture(chance, width, height, density) {
  const isBars = chance() < 0.4, across = 2 + Math.floor(chance() * 12), down = 2 + Math.floor(chance() * 12);
  return readPbm(pbm(width, height, (column, row) => {
    const isBar = isBars && (column % across === 0 || row % down === 0);
    return isBar ? chance() < 0.97 : chance() < density;
  }));
}

function randomStack(chance) {
  const below = (count) => Math.floor(chance() * count), width = 1 + below(90), height = 1 + below(160), count = 1 + below(4);
  const copper = Array.from({ length: count }, () => randomPicture(chance, width, height, chance() * chance()));
  const holes = Array.from({ length: below(3) }, () => {
    const [from, to] = [below(count), below(count)].sort((one, other) => one - other);
    return { picture: randomPicture(chance, width, height, chance() * chance() * 0.1), from, to };
  });
  return { copper, holes };
}

/** Fails where the nets by runs are other than those of a flood fill, pixel by pixel. */
export function compareWithFlood(copper, holes) {
  const nets = netsOf(copper.map(runsOf), holes.map(({ picture, from, to }) => ({ runs: runsOf(picture), from, to })));
  const { labels, count } = flooded(copper, holes), { width, height } = copper[0];
  assert.equal(nets.count, count);
  labels.forEach((ofLayer, layer) => {
    for (let row = 0; row < height; row++) {
      for (let column = 0; column < width; column++) {
        const net = nets.netAt(layer, column, row), wanted = ofLayer[row * width + column];
        if (net !== wanted) assert.fail(`layer ${layer}, column ${column}, row ${row}: net ${net} in place of ${wanted}`);
      }
    }
  });
  return nets;
}

suite("nets", () => {
  test("1,000 random pictures beside a flood fill", () => {
    const chance = chances(75);
    for (let number = 0; number < 1000; number++) {
      part(`picture ${number}`, () => {
        const { copper, holes } = randomStack(chance);
        compareWithFlood(copper, holes);
      });
    }
  });

  test("what is known of each net", () => {
    const chance = chances(7);
    for (let number = 0; number < 50; number++) {
      const { copper, holes } = randomStack(chance), { labels } = flooded(copper, holes);
      const nets = netsOf(copper.map(runsOf), holes.map(({ picture, from, to }) => ({ runs: runsOf(picture), from, to })));
      const { areas } = nets.tallies();
      copper.forEach((_, layer) => {
        const counted = new Float64Array(nets.count);
        for (const net of labels[layer]) if (net >= 0) counted[net]++;
        assert.deepEqual(areas[layer], counted);
        const visited = new Float64Array(nets.count);
        nets.visit(() => true, (_layer, row, start, end, net) => {
          visited[net] += end - start;
        }, layer, layer);
        assert.deepEqual(visited, counted);
      });
    }
  });

  test("pixels that meet at a corner are two pieces", () => {
    const nets = netsOf([runsOf(readPbm(pbm(2, 2, (column, row) => column === row)))]);
    assert.deepEqual([nets.count, nets.netAt(0, 0, 0), nets.netAt(0, 1, 1), nets.netAt(0, 1, 0), nets.netAt(0, 2, 0)],
      [2, 0, 1, -1, -1]);
  });

  test("a hole joins the layers that it passes alone", () => {
    const black = runsOf(readPbm(pbm(9, 9, (column) => column < 3))), hole = runsOf(readPbm(pbm(9, 9, (column, row) => column === 1 && row === 1)));
    const count = (from, to) => netsOf([black, black, black, black], [{ runs: hole, from, to }]).count;
    assert.deepEqual([count(0, 3), count(0, 1), count(1, 2), count(2, 2)], [1, 3, 3, 4]);
    const aside = runsOf(readPbm(pbm(9, 9, (column) => column === 3)));
    assert.equal(netsOf([black, black], [{ runs: aside, from: 0, to: 1 }]).count, 2);
  });
});

suite("netlists", () => {
  test("records of every kind", () => {
    const chance = chances(356);
    for (let number = 0; number < 300; number++) {
      part(`netlist ${number}`, () => {
        const { text, points } = randomNetlist(chance), { netlist, refusals } = readNetlist(bytesOf(text));
        assert.deepEqual(refusals, []);
        assert.deepEqual(netlist.points, points);
        assert.ok(isNetlist(bytesOf(text)));
      });
    }
  });

  test("broken ones are refused, each with its line", () => {
    const broken = brokenNetlists();
    assert.ok(broken.length >= 100, `${broken.length} broken netlists`);
    assert.equal(new Set(broken.map(({ text }) => text)).size, broken.length);
    for (const { name, text, line, says } of broken) {
      part(name, () => {
        const { netlist, refusals } = readNetlist(bytesOf(text));
        assert.equal(netlist, null);
        assert.equal(refusals[0].line, line, refusals[0].what);
        assert.ok(refusals[0].what.includes(says), refusals[0].what);
      });
    }
  });

  test("forms of other programs", () => {
    const read = (...lines) => readNetlist(bytesOf(lines.join("\n")));
    // A blank for a plus, sizes and blanks apart, a solder mask without a number, an end of CP/M.
    const { netlist } = read("C  IPC-D-356 Netlist", "P  JOB   b", "P  UNITS CUST 0", "P  DIM   N", "P  VER   IPC-D-356",
      "317GND              VIA   -     D 354PA00X 019685Y 015748X0236Y0000 R000 S ",
      "327Net1             U1    -1          A02X+000100Y-000100X0600Y0236", "999", "\x1a");
    assert.deepEqual(netlist.points.map(({ hole, x, y, width, access }) => [hole, x, y, width, access]),
      [[899160, 49999900, 39999920, 599440, 0], [null, 254000, -254000, 1524000, 2]]);
    assert.ok(!isNetlist(bytesOf("%FSLAX46Y46*%\n%MOMM*%\n")));
    assert.ok(!isNetlist(bytesOf("M48\nMETRIC\n")));
    assert.ok(isNetlist(bytesOf(`${recordOf({ code: 327, access: 1, x: 0, y: 0 })}\n`)));
  });

  test("continuations, comments, no units, pads without a net", () => {
    const through = recordOf({ code: 317, net: "GND", part: "J1", pin: "2", hole: 394, x: 1000, y: -2000, width: 787, height: 787 });
    const surface = recordOf({ code: 327, net: "VCC", part: "U1", pin: "8", access: 1, x: 1500, y: 2500, width: 610, height: 236 });
    const lines = ["C----- any comment", "Comment", through, `017${" ".repeat(35)}A02${" ".repeat(16)}`,
      `017${" ".repeat(38)}X+001000Y-002100X0600Y0600`, surface, `027${" ".repeat(35)}A02X+001500Y+002500`,
      recordOf({ code: 327, net: "n/c", access: 1, x: 1, y: 2 }), recordOf({ code: 327, net: "NC", access: 1, x: 1, y: 3 }), "999"];
    assert.ok(isNetlist(bytesOf(lines.join("\n"))));
    const { netlist, refusals } = readNetlist(bytesOf(lines.join("\n")));
    assert.deepEqual(refusals, []);
    assert.deepEqual(netlist.points.map(({ net, part, pin, kind, access, hole, x, y }) => [net, part, pin, kind, access, hole, x, y]), [
      ["GND", "J1", "2", "through", 0, 394 * 2540, 2540000, -5080000], ["GND", "J1", "2", "through", 0, 394 * 2540, 2540000, -5334000],
      ["VCC", "U1", "8", "surface", 1, null, 3810000, 6350000], ["VCC", "U1", "8", "surface", 2, null, 3810000, 6350000],
      [null, "R1", "1", "surface", 1, null, 2540, 5080], [null, "R1", "1", "surface", 1, null, 2540, 7620]]);
    assert.deepEqual([netlist.unit, netlist.isUnitTold, netlist.leftOut.get("017")], ["0.0001 inch", false, 1]);
    assert.deepEqual(readNetlist(bytesOf(["P  UNITS CUST 1", through, "999"].join("\n"))).netlist.isUnitTold, true);
  });

  test("a megabyte of blanks, and 100,000 records, in seconds", () => {
    const through = recordOf({ code: 317, net: "GND", hole: 394, x: 1000, y: -2000 }), blanks = " ".repeat(1e6), start = performance.now();
    for (const line of [`${through}${blanks}x`, `P${blanks}x`, `${blanks}x`, `317${blanks}x`, `${through.slice(0, 41)}${blanks}x`, `P  UNITS${blanks}x`]) {
      const { refusals } = readNetlist(bytesOf(`P  UNITS CUST 0\n${line}\n999\n`));
      assert.ok(refusals.length > 0 && refusals.every(({ what }) => what.length < 200));
    }
    const many = Array.from({ length: 100_000 }, (_, at) => recordOf({ code: 327, net: `N${at % 999}`, access: 1, x: at, y: at % 7, width: 10 }));
    assert.equal(readNetlist(bytesOf(["P  UNITS CUST 0", ...many, "999"].join("\n"))).netlist.points.length, 100_000);
    assert.ok(performance.now() - start < 15_000, `${performance.now() - start} ms`);
  });

  test("those of the examples", () => {
    for (const { folder, name, count } of [{ folder: "kicad", name: "nightlight", count: 17 }, { folder: "four_layers", name: "thermometer", count: 32 }]) {
      const bytes = readFileSync(join(REPOSITORY, "examples", folder, `${name}.d356`));
      assert.equal(readNetlist(bytes).netlist.points.length, count);
    }
  });
});
