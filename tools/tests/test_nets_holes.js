// tools/nets: pads without plating, and holes, routs and outlines that cut copper.

import assert from "node:assert/strict";
import { join } from "node:path";
import { part, suite, test } from "./harness.js";
import { box, draw, drill, flash, gerber, net, netlist, write } from "./small_boards.js";
import { newRoom, nets, netsFound } from "./support_nets.js";

const TOP = "Copper,L1,Top", BOTTOM = "Copper,L2,Bot";
const APERTURES = ["C,0.2", "C,1.6", "C,0.8"];
const END = 0.015;

function isNear(value, wanted) {
  assert.ok(Math.abs(Number(value) - wanted) <= END, `${value} in place of ${wanted}`);
}

suite("pads without plating", () => {
  const pads = [flash(11, [2, 2])], track = net("A", draw(10, [5, 5], [9, 5]), flash(12, [5, 5], [9, 5]));
  const list = netlist([{ code: 317, net: "N/C", part: "H1", hole: 1, isPlated: false, x: 2, y: 2, width: 1.6 },
    { code: 327, net: "A", part: "R1", access: 1, x: 5, y: 5, width: 0.8 }, { code: 327, net: "A", part: "R2", access: 1, x: 9, y: 5, width: 0.8 }]);

  test("on both sides, by a netlist and by attributes", () => {
    const room = newRoom();
    write(room, { "t.gbr": gerber(TOP, APERTURES, net("N/C", "%TO.P,H1,1*%", ...pads), track), "b.gbr": gerber(BOTTOM, APERTURES, net("N/C", "%TO.P,H1,1*%", ...pads)),
      "n.drl": drill("NonPlated,1,2,NPTH", [{ diameter: 1, hits: [[2, 2]] }]), "l.d356": list });
    for (const words of [["--ipc", join(room, "l.d356")], []]) {
      part(words.join(" "), () => {
        const { opens, shorts, withoutCopper } = netsFound([room, ...words]);
        assert.deepEqual([opens.length, shorts.length, withoutCopper.length], [0, 0, 0]);
      });
    }
  });

  test("tools of a drill file after ;TYPE=NON_PLATED", () => {
    const room = newRoom();
    write(room, { "t.gbr": gerber(TOP, APERTURES, ...pads, track), "b.gbr": gerber(BOTTOM, APERTURES, ...pads),
      "h.drl": drill(null, [{ diameter: 0.3, before: ";TYPE=PLATED", hits: [[5, 5]] }, { diameter: 1, before: ";TYPE=NON_PLATED", hits: [[2, 2]] }]), "l.d356": list });
    assert.match(nets([room, "--ipc", join(room, "l.d356")]), /1 hole of tools without plating left out, which cut copper/);
  });
});

suite("what cuts copper", () => {
  const track = net("A", draw(10, [1, 5], [9, 5]), flash(12, [1, 5], [9, 5])), top = gerber(TOP, APERTURES, track);
  const list = netlist([1, 9].map((x) => ({ code: 327, net: "A", part: `R${x}`, access: 1, x, y: 5, width: 0.8 })));
  const outline = (...lines) => gerber("Profile,NP", ["C,0.1"], ...lines);
  const frame = draw(10, [0, 0], [10, 0], [10, 10], [0, 10], [0, 0]);
  /** @type {[name: string, files: Record<string, string>, between: number[] | null][]} */
  const cases = [
    ["a hole without plating", { "n.drl": drill("NonPlated,1,1,NPTH", [{ diameter: 0.5, hits: [[4, 5]] }]) }, [3.771, 4.229]],
    ["a rout", { "n.drl": drill("NonPlated,1,1,NPTH", [{ diameter: 0.5, hits: [[[6, 4], [6, 6]]] }]) }, [5.75, 6.25]],
    ["a tool without plating among others", { "h.drl": drill(null, [{ diameter: 0.3, hits: [[1, 5]] }, { diameter: 0.6, before: ";TYPE=NON_PLATED", hits: [[4, 5]] }]) }, [3.717, 4.283]],
    ["a cut-out of the outline", { "o.gbr": outline(frame, draw(10, ...box(7, 4, 8, 6), [7, 4])) }, null],
  ];

  test("a track falls apart, at its place", () => {
    for (const [name, files, between] of cases) {
      const room = newRoom();
      write(room, { "t.gbr": top, "l.d356": list, ...files });
      for (const words of [["--ipc", join(room, "l.d356")], []]) {
        part(`${name}, ${words.join(" ")}`, () => {
          const { opens, shorts } = netsFound([room, ...words], 1);
          assert.deepEqual([opens.length, shorts.length], [1, 0]);
          if (!between) return;
          const [{ from, to }] = opens[0].gaps;
          [from, to].sort((one, other) => one.x - other.x).forEach(({ x, y }, at) => {
            isNear(x, between[at]);
            assert.ok(Math.abs(y - 5) <= 0.1 + END);
          });
        });
      }
    }
  });

  test("an outline around the board, and lines that are not closed, cut nothing", () => {
    const room = newRoom();
    write(room, { "t.gbr": top, "o.gbr": outline(frame, draw(10, [3, 0], [3, 10])) });
    const told = nets([room]);
    assert.match(told, /its closed lines cut copper; 1 open line left out/);
    assert.match(told, /0 opens, 0 shorts/);
  });
});
