// The texts of attributes: their names and fields, and what their escapes stand for. Gerber Layer Format Specification,
// "Attributes" and "Strings".

import { latin1Bytes, utf8 } from "../bytes/index.js";

/** What sets an aperture attribute, and what sets an object attribute. */
export const APERTURE = "TA";
export const OBJECT = "TO";

const LINE_ENDS = /[\r\n]/g;
const ESCAPE = /\\(?:u([0-9A-Fa-f]{4})|U([0-9A-Fa-f]{8})|([0-9A-Fa-f]{4}))/g;
const LAST_CODE_POINT = 0x10ffff;

/**
 * An attribute as a file has it, a character for each byte:
 * - `text`, what stands between the two `%`, without its `*`: `TO.N,GND`;
 * - `command`, TA or TO;
 * - `name`, with its point where it has one, as `.N`;
 * - `fields`, each as it is written; `plainText` reads one.
 */
export class Attribute {
  /** @param {string} text in one line */
  constructor(text) {
    const [head = "", ...fields] = text.split(",");
    this.text = text;
    this.command = /** @type {"TA" | "TO"} */ (head.slice(0, OBJECT.length));
    this.name = head.slice(OBJECT.length);
    /** @type {readonly string[]} */
    this.fields = fields;
  }
}

/**
 * A text without its line ends, which mean nothing in a Gerber file, not even in a field.
 * @param {string} text
 */
export function inOneLine(text) {
  return text.replace(LINE_ENDS, "");
}

/**
 * The attribute of a name.
 * @param {readonly Attribute[]} attributes
 * @param {string} name
 * @returns {Attribute | null}
 */
export function named(attributes, name) {
  return attributes.find((attribute) => attribute.name === name) ?? null;
}

/**
 * @param {string} escape
 * @param {string | undefined} short
 * @param {string | undefined} long
 * @param {string} old
 */
function unescaped(escape, short, long, old) {
  const code = parseInt(short ?? long ?? old, 16);
  if (long === undefined) return String.fromCharCode(code);
  return code <= LAST_CODE_POINT ? String.fromCodePoint(code) : escape;
}

/**
 * What a name or a field says: its bytes read as UTF-8, and each escape as the character that it stands for: `\uXXXX`
 * and `\UXXXXXXXX`, and `\XXXX`, as older files have it. What is no escape stays.
 * @param {string} raw a character for each byte
 * @returns {string}
 */
export function plainText(raw) {
  return utf8(latin1Bytes(raw)).replace(ESCAPE, unescaped);
}
