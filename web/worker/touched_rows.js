// Which rows of a layer's picture an edit touched: the page gets these alone, and composes what lies there anew.

/** @typedef {{ width: number, height: number, stride: number, bits: Uint8Array }} Picture as pictureOf of pictures.js gives it */
/** @typedef {{ from: number, to: number }} Rows the first one, and the one behind the last */

// The words of a picture's file, of which only the last bytes may lack. Both files of a layer in one window have the same head.
/** @param {Picture} picture */
const wordsOf = ({ bits: { buffer } }) => new Uint32Array(buffer, 0, buffer.byteLength >> 2);

/**
 * The rows that differ between two pictures of one window, so many together; null where none does.
 * @param {Picture} before
 * @param {Picture} now
 * @param {number} samples rows of the picture for one of the page
 * @returns {Rows | null}
 */
export function touchedRows(before, now, samples) {
  const old = wordsOf(before), words = wordsOf(now), { stride, height, bits: { byteOffset } } = now;
  /** @param {number} word */
  const rowOf = (word) => Math.min(height - 1, Math.max(0, Math.floor((4 * word - byteOffset) / stride)));
  let first = 0, last = words.length - 1;
  while (first <= last && old[first] === words[first]) first++;
  while (last > first && old[last] === words[last]) last--;
  const end = before.bits.subarray(-4).some((byte, at) => byte !== now.bits.subarray(-4)[at]);
  if (first > last && !end) return null;
  const from = first > last ? height - 1 : rowOf(first), to = end ? height : Math.min(height, rowOf(last) + 2);
  return { from: Math.floor(from / samples) * samples, to: Math.min(height, Math.ceil(to / samples) * samples) };
}

/** @param {Picture} picture @param {Rows} rows @returns {Picture} */
export const rowsOf = (picture, { from, to }) =>
  ({ ...picture, height: to - from, bits: picture.bits.subarray(from * picture.stride, to * picture.stride) });
