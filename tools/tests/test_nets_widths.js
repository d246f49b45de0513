// web/nets: how wide copper is said to be, and where, beside what was drawn.

import assert from "node:assert/strict";
import { Grid } from "../../web/nets/grid.js";
import { compareNets } from "../../web/nets/compare.js";
import { thinPlaces } from "../../web/nets/necks.js";
import { netsOf } from "../../web/nets/nets.js";
import { runsOf } from "../../web/nets/runs.js";
import { Widths } from "../../web/nets/widths.js";
import { readPbm } from "../../web/bytes/pbm.js";
import { part, suite, test } from "./harness.js";
import { chances, pbm } from "./pictures.js";

const DIAGONAL = Math.SQRT2;

// Copper by shapes: a pixel is black where its centre lies in one. Lengths are in pixels.
const disc = (x, y, radius) => (column, row) => Math.hypot(column - x, row - y) <= radius;
const bar = (x0, y0, x1, y1, width) => {
  const dx = x1 - x0, dy = y1 - y0, square = dx * dx + dy * dy;
  return (column, row) => {
    const part = square ? Math.min(1, Math.max(0, ((column - x0) * dx + (row - y0) * dy) / square)) : 0;
    return Math.hypot(column - x0 - part * dx, row - y0 - part * dy) <= width / 2;
  };
};
const runsOfShapes = (width, height, shapes) => runsOf(readPbm(pbm(width, height, (column, row) => shapes.some((isIn) => isIn(column, row)))));

function along(angle, length, side) {
  const x = Math.cos(angle * Math.PI / 180) * length / 2, y = Math.sin(angle * Math.PI / 180) * length / 2;
  return [side / 2 - x, side / 2 - y, side / 2 + x, side / 2 + y];
}

const ANGLES = Array.from({ length: 25 }, (_, at) => at * 3.75);

suite("widths", () => {
  test("bars at every angle", () => {
    // Bars of 0.2, 1 and 3 mm at 10, 10 and 25 µm a pixel.
    for (const width of [20, 100, 120]) {
      for (const angle of ANGLES) {
        part(`${width} pixels at ${angle} degrees`, () => {
          const side = Math.ceil(4 * width + 20), [found, ...others] = thinPlaces(netsOf([runsOfShapes(side, side,
            [bar(...along(angle, 3 * width, side), width)])]), width + 2);
          assert.ok(Math.abs(found.width - width) < DIAGONAL, `${found.width}`);
          assert.deepEqual(others, []);
        });
      }
    }
  });

  test("at every pixel of a bar", () => {
    const chance = chances(93);
    for (let number = 0; number < 60; number++) {
      const width = 2 + 30 * chance(), angle = 90 * chance(), side = Math.ceil(3 * width + 60), ends = along(angle, 2 * width + 30, side);
      const runs = runsOfShapes(side, side, [bar(...ends, width)]), widths = new Widths(runs), inner = bar(...along(angle, width, side), width - 1);
      part(`${width} pixels at ${angle} degrees`, () => {
        for (let row = 0; row < side; row++) {
          for (let column = 0; column < side; column++) {
            if (!inner(column, row)) continue;
            const found = widths.at(column, row);
            assert.ok(Math.abs(found.width - width) < DIAGONAL, `${found.width} at ${column}, ${row}`);
          }
        }
      });
    }
  });

  test("a notch in a track, thinner parts of one first", () => {
    // A track of 20 pixels with a notch that leaves 9; one that leaves 12 is found apart where they lie far from each other.
    const shapes = [bar(30, 60, 370, 60, 20)], notches = [disc(120, 49, 10), disc(280, 49, 7)];
    const runs = runsOf(readPbm(pbm(400, 120, (column, row) => shapes[0](column, row) && !notches.some((isIn) => isIn(column, row)))));
    const found = thinPlaces(netsOf([runs]), 17);
    assert.equal(found.length, 2);
    [[120, 64.5, 11], [280, 63, 14]].forEach(([column, row, width], at) => {
      assert.ok(Math.abs(found[at].width - width) < DIAGONAL, `${found[at].width} in place of ${width}`);
      assert.ok(Math.hypot(found[at].column - column, found[at].row - row) < DIAGONAL, `${found[at].column}, ${found[at].row}`);
    });
  });
});

// Looks for the nearest white at each place, and counts how often.
class Searching extends Widths {
  searches = 0;

  toWhite(x, y, radius) {
    this.searches++;
    return super.toWhite(x, y, radius);
  }
}

class Unstraight extends Searching {
  straightDisc() {
    return null;
  }
}

// Bars along y, some of which are cut, notched or bridged: black where a bar or a bridge is, and no notch.
function barsOf(chance, side) {
  const bars = [], notches = [], bridges = [];
  for (let left = 2 + 8 * chance(); left < side - 30; left += 4 + 30 * chance()) {
    const width = 1 + Math.floor(20 * chance()), middle = left + width / 2, from = side * chance() * 0.4, to = from + side * chance();
    bars.push(bar(middle, from, middle, to, width));
    if (chance() < 0.5) notches.push(disc(left + width * chance(), from + (to - from) * chance(), 1 + 8 * chance()));
    if (chance() < 0.3) bridges.push(bar(middle, (from + to) / 2, middle + 20, (from + to) / 2 + 8 * chance(), 1 + 4 * chance()));
    left += width;
  }
  return (column, row) => [...bars, ...bridges].some((isIn) => isIn(column, row)) && !notches.some((isIn) => isIn(column, row));
}

suite("widths along y", () => {
  test("the disc of rows that are alike is the one that a search finds", () => {
    const chance = chances(31), side = 130;
    for (let number = 0; number < 8; number++) {
      const runs = runsOfShapes(side, side, [barsOf(chance, side)]), widths = new Searching(runs), plain = new Unstraight(runs);
      part(`picture ${number}`, () => {
        // By columns, as parts are measured, and then anywhere.
        const places = Array.from({ length: side * side }, (_, at) => [Math.floor(at / side), at % side]);
        const others = Array.from({ length: 2000 }, () => [Math.floor(side * chance()), Math.floor(side * chance())]);
        for (const [column, row] of [...places, ...others]) {
          if (!runs.isBlack(column, row)) continue;
          const most = chance() < 0.5 ? Infinity : 20 * chance();
          assert.deepEqual(widths.disc(column, row, most), plain.disc(column, row, most), `${column}, ${row}, ${most}`);
        }
        assert.ok(widths.searches < plain.searches, `${widths.searches} searches beside ${plain.searches}`);
      });
    }
  });

  test("a long track is searched at its ends alone", () => {
    const runs = runsOfShapes(60, 2000, [bar(30, 20, 30, 1980, 15)]), widths = new Searching(runs);
    for (let row = 20; row <= 1980; row++) widths.disc(30, row);
    assert.ok(widths.searches < 200, `${widths.searches} searches`);
  });
});

// The place where two nets touch, with a point of each at a pixel.
function touchingOf(runs, one, other) {
  const nets = netsOf([runs]), grid = new Grid({ x: 0, y: 0, pitch: 1, width: runs.width, height: runs.height });
  const point = (net, [column, row]) => ({ net, name: net, isPin: true, source: "", ...grid.placeOf(column, row), layers: [0], isThrough: false,
    reach: 0 });
  const { shorts } = compareNets(nets, grid, [point("A", one), point("B", other)]);
  assert.equal(shorts.length, 1);
  const [{ place, width }] = shorts[0].touching;
  return { column: grid.columnOf(place.x), row: grid.rowOf(place.y), width };
}

function checkTouching({ column, row, width }, wanted, exact = DIAGONAL) {
  assert.ok(Math.abs(width - wanted.width) < exact, `${width} in place of ${wanted.width}`);
  const away = Math.hypot(column - wanted.column, row - wanted.row);
  assert.ok(away <= DIAGONAL + 1e-9, `(${column}, ${row}) in place of (${wanted.column}, ${wanted.row})`);
}

suite("where two nets touch", () => {
  // Pads of 1.6 mm at 2.54 mm, in pixels of 20 µm, and a bridge of 0.3 mm between them.
  test("a bridge between two pads", () => {
    for (const angle of ANGLES) {
      part(`${angle} degrees`, () => {
        const side = 300, [x0, y0, x1, y1] = along(angle, 127, side), runs = runsOfShapes(side, side,
          [disc(x0, y0, 40), disc(x1, y1, 40), bar(x0, y0, x1, y1, 15)]);
        const found = touchingOf(runs, [Math.round(x0), Math.round(y0)], [Math.round(x1), Math.round(y1)]);
        // Anywhere on the bridge it is as narrow: the place is told near its middle.
        const [x, y] = [found.column - side / 2, found.row - side / 2], length = Math.hypot(x1 - x0, y1 - y0);
        const on = (x * (x1 - x0) + y * (y1 - y0)) / length;
        assert.ok(Math.abs(on) < 6, `${on} pixels from the middle`);
        checkTouching(found, { column: side / 2 + on * (x1 - x0) / length, row: side / 2 + on * (y1 - y0) / length, width: 15 });
      });
    }
  });

  test("pads that overlap", () => {
    for (const angle of ANGLES) {
      part(`${angle} degrees`, () => {
        const side = 300, [x0, y0, x1, y1] = along(angle, 60, side), runs = runsOfShapes(side, side, [disc(x0, y0, 40), disc(x1, y1, 40)]);
        const found = touchingOf(runs, [Math.round(x0), Math.round(y0)], [Math.round(x1), Math.round(y1)]);
        // White pixels do not reach into the tips of the corners.
        checkTouching(found, { column: side / 2, row: side / 2, width: 2 * Math.sqrt(40 * 40 - 30 * 30) }, DIAGONAL / Math.sin(Math.acos(30 / 40)));
      });
    }
  });

  test("a bridge that is wider than the track that it begins on", () => {
    for (const angle of ANGLES) {
      part(`${angle} degrees`, () => {
        // The track of A passes the end of B's, and the bridge lies across.
        const side = 400, turned = (x, y) => {
          const [cos, sin] = [Math.cos(angle * Math.PI / 180), Math.sin(angle * Math.PI / 180)];
          return [side / 2 + x * cos - y * sin, side / 2 + x * sin + y * cos];
        };
        const track = (y) => bar(...turned(-120, y), ...turned(120, y), 10), runs = runsOfShapes(side, side,
          [track(-30), track(30), bar(...turned(0, -30), ...turned(0, 30), 14)]);
        const ends = (y) => [turned(-118, y), turned(118, y)].map((place) => place.map(Math.round));
        const found = touchingOf(runs, ends(-30)[0], ends(30)[1]);
        assert.ok(found.width < 14 + DIAGONAL, `${found.width}`);
      });
    }
  });
});
