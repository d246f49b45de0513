// What people call layers, by the function that a file says or by its name, and that the colours of a board's layers stay apart.

import assert from "node:assert/strict";
import { PLAIN, byFunction, inner, recognise, seen } from "../../web/board/index.js";
import { suite, test } from "./harness.js";

const FILE = new TextEncoder().encode("%FSLAX46Y46*%\n%MOMM*%\nM02*\n");
/** @type {(name: string) => string | undefined} */
const called = (name) => recognise({ name, bytes: FILE }, true)?.layerFunction.label;

suite("a layer is called", () => {
  for (const [value, name, label] of [
    ["AssemblyDrawing,Top", "drawing", "assembly drawing, top"], ["AssemblyDrawing,Bot", "drawing", "assembly drawing, bottom"],
    ["FabricationDrawing", "drawing", "fabrication drawing"], ["ArrayDrawing", "drawing", "array drawing"], ["Drillmap", "drawing", "drill map"],
    ["OtherDrawing,Comment", "drawing", "drawing, comment"], ["Component,L1,Top", "drawing", "components, top"], ["Depthrout,Top", "other", "depth routing, top"],
    ["Vcut", "other", "V-cut"], ["Viafill", "other", "via fill"], ["Peelablemask,Bot", "other", "peelable mask, bottom"], ["Other,ECO1", "other", "ECO1"],
    ["Other,User Drawings", "other", "user drawings"], ["MyOwnDrawing,Top", "drawing", "my own drawing, top"], ["Legend", "other", "silkscreen"], [",", "other", "other"],
    ["Copper,L1,Top", "top", "top copper"], ["Paste,Bot", "bottom-paste", "bottom paste"],
  ]) {
    test(`${label} where its file says ${value}`, () => assert.deepEqual([byFunction(value).name, byFunction(value).label], [name, label]));
  }

  test("by the words of its file's name where it says nothing", () => {
    for (const [name, label] of [["lamp-F_Fab.gbr", "fabrication drawing, top"], ["lamp-B_Courtyard.gbr", "courtyard, bottom"], ["lamp-F.CrtYd.gbr", "courtyard, top"],
      ["lamp-User_Comments.gbr", "comments"], ["lamp Assembly Top.gbr", "assembly drawing, top"], ["lamp-drl_map.gbr", "drill map"],
      ["lamp-Dwgs_User.gbr", "drawing lamp-Dwgs_User.gbr"], ["lamp.gm3", "mechanical 3"], ["lamp-F_Cu.gbr", "top copper"]]) assert.equal(called(name), label);
  });

  test("in at most 83 letters, which end with a word", () => {
    const { label } = byFunction(`OtherDrawing,${"a long word ".repeat(20)}`);
    assert.ok(label.length <= 83 && / (?:a|long|word) \.\.$/.test(label), label);
  });
});

/** @param {string} colour @returns {number[]} in CIE Lab */
function labOf(colour) {
  const [r, g, b] = [1, 3, 5].map((at) => parseInt(colour.slice(at, at + 2), 16) / 255).map((part) => (part <= 0.04045 ? part / 12.92 : ((part + 0.055) / 1.055) ** 2.4));
  const [x, y, z] = [(0.4124 * r + 0.3576 * g + 0.1805 * b) / 0.95047, 0.2126 * r + 0.7152 * g + 0.0722 * b, (0.0193 * r + 0.1192 * g + 0.9505 * b) / 1.08883]
    .map((part) => (part > 0.008856 ? Math.cbrt(part) : 7.787 * part + 16 / 116));
  return [116 * y - 16, 500 * (x - y), 200 * (y - z)];
}

/** @type {(one: string, other: string) => number} how far colours are apart: 2.3 is what is just seen */
const apart = (one, other) => Math.hypot(...labOf(one).map((part, at) => part - labOf(other)[at]));

suite("colours", () => {
  test("of copper, ten inner layers, masks, paste, glue, drawings and others stay apart in both looks", () => {
    const layers = [...[...PLAIN.values()].filter(({ name }) => !["holes", "plated", "nonplated", "outline", "top-silk", "bottom-silk"].includes(name)),
      ...Array.from({ length: 10 }, (_, at) => inner(at + 1))];
    assert.equal(layers.length, 20);
    for (const isLight of [false, true]) {
      const pairs = layers.flatMap((one, at) => layers.slice(at + 1).map((other) => ({ names: `${one.name} ${other.name}`,
        far: apart(seen(one.colour, isLight), seen(other.colour, isLight)) })));
      const least = pairs.reduce((one, other) => (other.far < one.far ? other : one));
      assert.ok(least.far > 16, `${least.names}: ${least.far}`);
    }
  });
});
