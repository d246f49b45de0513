// Words as a shell takes them.

/**
 * A word of a shell's line.
 * @param {string} word
 */
export function quoted(word) {
  return /^[\w./:@%+=,-]+$/.test(word) ? word : `'${word.replaceAll("'", "'\\''")}'`;
}
