// The sides of a board: the box of the middles of its outline's lines, so that the width of a line does not count.

import { boxOf, itemOf, joined, moved, turned } from "./paths.js";

/** @typedef {import("./layers.js").ToldLayer} ToldLayer */
/** @typedef {import("./paths.js").Box} Box */

// The lines of one layer.
class Lines {
  /** @param {ToldLayer} layer */
  constructor(layer) {
    this.layer = layer;
    /** @type {Map<number, Box | null>} */
    this.blocks = new Map();
  }

  // Of an item: the box of a draw or an arc along its middle, of a region along its contour, with the copies of a repeat and the
  // objects of a block. A flash has no line; what is clear is no outline.
  /** @param {string} words @param {string[]} objects @returns {Box | null} */
  box(words, objects) {
    const item = itemOf(words);
    if (!item || !item.isDark) return null;
    if (item.repeat) {
      const { columns, rows, stepX, stepY } = item.repeat, one = this.boxOfAll(objects);
      return one && joined(one, moved(one, (columns - 1) * stepX, (rows - 1) * stepY));
    }
    if (item.kind !== "flash") return boxOf(item.ways);
    const block = this.boxOfBlock(item.number), [[x, y]] = item.points;
    return block && moved(turned(block, item.turn), x, y);
  }

  /** @param {readonly string[]} objects */
  boxOfAll(objects) {
    return objects.reduce((/** @type {Box | null} */ box, words) => joined(box, this.box(words, [])), null);
  }

  /** @param {number} number @returns {Box | null} */
  boxOfBlock(number) {
    const known = this.blocks.get(number), shape = this.layer.shapes.get(number);
    if (known !== undefined || shape?.kind !== "block") return known ?? null;
    this.blocks.set(number, null);
    const box = this.boxOfAll(shape.objects);
    this.blocks.set(number, box);
    return box;
  }

  whole() {
    return this.layer.items.reduce((/** @type {Box | null} */ box, { words, objects }) => joined(box, this.box(words, objects)), null);
  }
}

/**
 * The box of a board's outline.
 * @param {readonly ToldLayer[]} layers
 * @returns {{outlines: ToldLayer[], box: Box | null}} the layers that are the outline; no box where they have no line
 */
export function outlineBox(layers) {
  const outlines = layers.filter(({ group }) => group === "outline");
  return { outlines, box: outlines.reduce((/** @type {Box | null} */ box, layer) => joined(box, new Lines(layer).whole()), null) };
}
