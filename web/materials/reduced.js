// A small picture of materials: each of its pixels has the mean colour of a square of pixels.

/**
 * A picture in red, green, blue and opacity, a byte of each for a pixel.
 * @typedef {{width: number, height: number, pixels: Uint8Array}} Colours
 */

// Red, green and blue of colours, one after another.
/** @param {string[]} colours */
const channelsOf = (colours) => Uint8Array.from(colours.flatMap((colour) => [1, 3, 5].map((at) => Number.parseInt(colour.slice(at, at + 2), 16))));

/**
 * The picture of materials with at most so many pixels a side. Where there is nothing it is transparent.
 * @param {Uint8Array} rows as `nibbleRows` gives them, with nothing before each
 * @param {number} width
 * @param {number} height
 * @param {string[]} colours by the materials' numbers
 * @param {number} most
 * @returns {Colours}
 */
export function reduced(rows, width, height, colours, most) {
  const step = Math.max(1, Math.ceil(Math.max(width, height) / most)), across = Math.ceil(width / step), down = Math.ceil(height / step);
  const pixels = new Uint8Array(4 * across * down), channels = channelsOf(colours), bytes = Math.ceil(width / 2);
  const counts = new Uint32Array(across * colours.length);
  for (let y = 0; y < down; y++) {
    const last = Math.min(height, (y + 1) * step);
    counts.fill(0);
    for (let row = y * step; row < last; row++) {
      for (let column = 0, at = 0, left = step; column < width; column++) {
        counts[at + (/** @type {number} */ (rows[row * bytes + (column >> 1)]) >> (column & 1 ? 0 : 4) & 15)]++;
        if (--left === 0) {
          at += colours.length;
          left = step;
        }
      }
    }
    for (let x = 0; x < across; x++) {
      const all = (Math.min(width, (x + 1) * step) - x * step) * (last - y * step);
      mix(counts.subarray(x * colours.length, (x + 1) * colours.length), all, channels, pixels, 4 * (y * across + x));
    }
  }
  return { width: across, height: down, pixels };
}

// The mean of the materials but nothing, which is the first; and how much of the square they are.
/** @param {Uint32Array} counts @param {number} all @param {Uint8Array} channels @param {Uint8Array} pixels @param {number} to */
function mix(counts, all, channels, pixels, to) {
  const there = all - (counts[0] ?? 0);
  if (there === 0) return;
  for (let channel = 0; channel < 3; channel++) {
    let sum = 0;
    for (let number = 1; number < counts.length; number++) sum += /** @type {number} */ (counts[number]) * /** @type {number} */ (channels[3 * number + channel]);
    pixels[to + channel] = Math.round(sum / there);
  }
  pixels[to + 3] = Math.round(255 * there / all);
}
