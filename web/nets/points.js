// The points of a netlist on the pictures of a board.

import { aligned } from "./alignment.js";
import { elementAt } from "./lists.js";

/**
 * A point that belongs to a net.
 * @typedef {object} NetPoint
 * @property {string | null} net null where it belongs to none, and so to no other point
 * @property {string} name what people call it, as R1-1
 * @property {boolean} isPin whether that is a pin of a part
 * @property {string} source where it is told, as `line 7` or `top 3`
 * @property {number} x in nm
 * @property {number} y
 * @property {number[]} layers the copper layers, by their places in the stack, on which it may lie; none of a point whose
 *   layers are not there, which is not compared
 * @property {boolean} isThrough whether a plated hole joins these layers there
 * @property {boolean} [isDrilled] whether a netlist or an attribute says that it has a plated hole
 * @property {boolean} [isBareAllowed] whether it may have no copper, as a hole without plating and without a net
 * @property {number} reach how far from the place its pad reaches, in nm; 0 where that is not known
 * @property {{layer: number, x: number, y: number}[]} [spots] places on its layers, in place of its own: the first that is black
 *   counts on each
 * @property {string | null} [copy] which copy of a panel it belongs to
 */

/**
 * A point with the copper that lies there.
 * @typedef {{point: NetPoint, on: {layer: number, column: number, row: number, net: number}[]}} Placed
 */

/**
 * The copper of a board: the numbers of the layers that are there, from the top, and the number of the lowest one as far as
 * files tell, also if it is not there.
 * @typedef {{numbers: number[], last: number}} CopperNumbers
 */

/**
 * The copper of a stack.
 * @param {import("./stack.js").Stack} stack
 * @returns {CopperNumbers}
 */
export function numbersOf({ copper, missing }) {
  const numbers = copper.map(({ number }) => number);
  return { numbers, last: Math.max(...numbers, ...missing) };
}

/**
 * Which copper each point of a netlist lies on, by numbers: 1 is the top. Some programs call the bottom 2 on boards of more
 * layers; that is so where no point has a higher number, nor a layer in between a span.
 * @param {import("./ipc.js").Netlist} netlist
 * @param {CopperNumbers} copper
 * @returns {(point: import("./ipc_record.js").Point) => number[]}
 */
export function layerReader({ points }, { last }) {
  const most = points.reduce((found, { access, span }) => Math.max(found, access, span?.[1] ?? 0), 0), lowest = Math.max(last, most);
  const isSides = most <= 2;
  return ({ access, span, kind }) => {
    if (span) return between(span[0], span[1]);
    if (kind !== "surface" && access === 0) return between(1, lowest);
    return [access === 2 && isSides ? lowest : access];
  };
}

/** @param {number} first @param {number} last */
function between(first, last) {
  return Array.from({ length: last - first + 1 }, (_, at) => first + at);
}

/**
 * The points of a netlist, about the origin of the Gerber files. One lies on the layers alone that are there.
 * @param {import("./ipc.js").Netlist} netlist
 * @param {CopperNumbers} copper
 * @param {import("./alignment.js").Alignment} alignment
 * @returns {NetPoint[]}
 */
export function pointsOfNetlist(netlist, copper, alignment) {
  const points = netlist.points.filter(({ kind }) => kind !== "tooling"), layersOf = layerReader(netlist, copper);
  return points.flatMap((point) => {
    const { line, kind, net, part, pin } = point, { x, y } = aligned(alignment, point);
    const { scale } = alignment, hole = (point.hole ?? 0) * scale, width = point.width * scale, height = point.height * scale;
    const layers = layersOf(point).map((number) => copper.numbers.indexOf(number)).filter((at) => at >= 0);
    const found = { net, name: pin === "" ? part : `${part}-${pin}`, isPin: part !== "VIA", source: `line ${line}`, x, y, layers,
      isThrough: kind !== "surface" && point.isPlated, isDrilled: kind !== "surface" && point.isPlated, isBareAllowed: net === null && kind !== "surface" && !point.isPlated,
      reach: Math.max(Math.min(width, height || width), hole) / 2 };
    if (found.isThrough || layers.length < 2) return [found];
    // No hole joins a pad without plating: it stands for each of its layers by itself.
    return layers.map((layer) => ({ ...found, layers: [layer], source: `${found.source}, copper ${copper.numbers[layer]}` }));
  });
}

/**
 * The nearest black pixel in squares around a place, up to a radius in pixels; a place on a hole's rim may be white.
 * @param {import("./runs.js").Runs} runs
 * @param {number} column
 * @param {number} row
 * @param {number} radius
 * @returns {[column: number, row: number] | null}
 */
function nearBlack(runs, column, row, radius) {
  for (let away = 0; away <= radius; away++) {
    for (let across = -away; across <= away; across++) {
      /** @type {[number, number][]} */
      const steps = [[across, -away], [across, away], [-away, across], [away, across]];
      for (const [dx, dy] of steps) {
        if (Math.hypot(dx, dy) <= radius && runs.isBlack(column + dx, row + dy)) return [column + dx, row + dy];
      }
    }
  }
  return null;
}

/**
 * The copper at a point: on each of its layers at its place. Where that is white on all, as in a pad with a hole in it, the
 * nearest copper within its pad's reach counts.
 * @param {import("./nets.js").Nets} nets
 * @param {import("./grid.js").Grid} grid
 * @param {NetPoint} point
 * @returns {Placed}
 */
export function placed(nets, grid, point) {
  const column = grid.columnOf(point.x), row = grid.rowOf(point.y);
  const on = point.layers.flatMap((layer) => {
    for (const { x, y } of point.spots?.filter((spot) => spot.layer === layer) ?? [point]) {
      const at = { layer, column: grid.columnOf(x), row: grid.rowOf(y) }, net = nets.netAt(layer, at.column, at.row);
      if (net >= 0) return [{ ...at, net }];
    }
    return [];
  });
  if (on.length || point.reach < grid.pitch) return { point, on };
  const radius = Math.floor(point.reach / grid.pitch);
  const near = point.layers.flatMap((layer) => {
    const found = nearBlack(elementAt(nets.copper, layer), column, row, radius);
    return found ? [{ layer, column: found[0], row: found[1], net: nets.netAt(layer, ...found) }] : [];
  });
  return { point, on: near };
}
