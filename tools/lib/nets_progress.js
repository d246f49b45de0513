// What the tool is at, on a terminal alone, and only while it is at it.

const CLEARED = "\r\x1b[K";

/**
 * Tells on standard error what is done now, in place of what was told before.
 * @param {string} text nothing, once all is done
 */
export function progress(text) {
  if (process.stderr.isTTY) process.stderr.write(`${CLEARED}${text}`);
}
