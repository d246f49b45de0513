// Bytes as text and back.

const PIECE = 8192;

/**
 * The text whose characters are these bytes, each by its number (ISO 8859-1). A decoder named "latin1" is none: it reads
 * windows-1252.
 * @param {Uint8Array} bytes
 * @returns {string}
 */
export function latin1(bytes) {
  // Of ASCII both decodings are the same, and this one is quick.
  if (isAscii(bytes)) return utf8(bytes);
  let text = "";
  for (let at = 0; at < bytes.length; at += PIECE) {
    text += String.fromCharCode(...bytes.subarray(at, at + PIECE));
  }
  return text;
}

/** @param {Uint8Array} bytes */
function isAscii(bytes) {
  for (let at = 0; at < bytes.length; at++) if ((bytes[at] ?? 0) > 127) return false;
  return true;
}

/**
 * The bytes of a text whose characters are all below 256.
 * @param {string} text
 * @returns {Uint8Array}
 */
export function latin1Bytes(text) {
  const bytes = new Uint8Array(text.length);
  for (let at = 0; at < text.length; at++) bytes[at] = text.charCodeAt(at);
  return bytes;
}

/**
 * The text of bytes in UTF-8; what is none becomes U+FFFD.
 * @param {Uint8Array} bytes
 * @returns {string}
 */
export function utf8(bytes) {
  return new TextDecoder("utf-8", { ignoreBOM: true }).decode(bytes);
}

/**
 * @param {Uint8Array} bytes
 * @returns {boolean} whether they begin with the byte order mark of UTF-8
 */
export function hasByteOrderMark(bytes) {
  return bytes[0] === 0xef && bytes[1] === 0xbb && bytes[2] === 0xbf;
}
