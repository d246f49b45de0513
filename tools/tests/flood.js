// Nets pixel by pixel, as plainly as can be: what web/nets is compared with.

const blackAt = ({ width, height, stride, bits }, column, row) => column >= 0 && row >= 0 && column < width && row < height
  && (bits[row * stride + (column >> 3)] >> (7 - (column & 7)) & 1) === 1;

/**
 * The net of each pixel of copper and of holes, counted from 0 in the order of the layers and rows; -1 where there is none.
 * @param {import("../../web/bytes/pbm.js").Picture[]} copper
 * @param {{picture: import("../../web/bytes/pbm.js").Picture, from: number, to: number}[]} holes
 * @returns {{labels: Int32Array[], count: number}}
 */
export function flooded(copper, holes) {
  const { width, height } = copper[0], all = [...copper, ...holes.map(({ picture }) => picture)];
  const labels = all.map(() => new Int32Array(width * height).fill(-1)), waiting = [];
  let count = 0;
  const enter = (layer, column, row) => {
    if (!blackAt(all[layer], column, row) || labels[layer][row * width + column] >= 0) return;
    labels[layer][row * width + column] = count;
    waiting.push([layer, column, row]);
  };
  const spread = ([layer, column, row]) => {
    for (const [dx, dy] of [[-1, 0], [1, 0], [0, -1], [0, 1]]) enter(layer, column + dx, row + dy);
    holes.forEach(({ from, to }, at) => {
      if (layer === copper.length + at) for (let passed = from; passed <= to; passed++) enter(passed, column, row);
      else if (from <= layer && layer <= to) enter(copper.length + at, column, row);
    });
  };
  for (let layer = 0; layer < copper.length; layer++) {
    for (let at = 0; at < width * height; at++) {
      enter(layer, at % width, Math.floor(at / width));
      if (!waiting.length) continue;
      while (waiting.length) spread(waiting.pop());
      count++;
    }
  }
  return { labels, count };
}
