// The picture of materials on a screen: each of its pixels has the mean colour of a square of two by two.

// Red, green, blue and opacity of the mean of four colours but nothing's, which are the first, as a canvas has them in memory.
/** @param {number[]} numbers @param {number[][]} channels */
function meanOf(numbers, channels) {
  const there = numbers.filter((number) => number > 0);
  if (!there.length) return 0;
  /** @param {number} channel */
  const mean = (channel) => Math.round(there.reduce((sum, number) => sum + (channels[number]?.[channel] ?? 0), 0) / there.length);
  return (Math.round(255 * there.length / 4) << 24 | mean(2) << 16 | mean(1) << 8 | mean(0)) >>> 0;
}

// Two pixels in a byte of four bits each, in six bits.
const SIX = Uint8Array.from({ length: 256 }, (_, byte) => (byte >> 4 & 7) << 3 | byte & 7);

/**
 * Paints materials into the pixels of an image of half the sides; where there is nothing they are transparent.
 * @param {Uint8Array} rows as `nibbleRows` gives them, with nothing before each
 * @param {number} width an even number of pixels
 * @param {number} height as well
 * @param {string[]} colours by the materials' numbers
 * @param {Uint32Array} pixels
 */
export function colourSquares(rows, width, height, colours, pixels) {
  const channels = colours.map((colour) => [1, 3, 5].map((at) => Number.parseInt(colour.slice(at, at + 2), 16)));
  const means = new Uint32Array(4096), bytes = width >> 1;
  for (let four = 0; four < 4096; four++) {
    const numbers = [9, 6, 3, 0].map((shift) => four >> shift & 7);
    if (numbers.every((number) => number < channels.length)) means[four] = meanOf(numbers, channels);
  }
  for (let row = 0, to = 0; row < height; row += 2) {
    for (let upper = row * bytes, end = upper + bytes; upper < end; upper++) {
      const above = /** @type {number} */ (SIX[/** @type {number} */ (rows[upper])]), below = /** @type {number} */ (SIX[/** @type {number} */ (rows[upper + bytes])]);
      pixels[to++] = /** @type {number} */ (means[above << 6 | below]);
    }
  }
}
