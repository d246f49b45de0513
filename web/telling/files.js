// What the file of a layer says that no station keeps: attributes of items, apertures and tools, file attributes in comments,
// names of macros, and comments.

import { latin1, latin1Bytes, utf8 } from "../bytes/index.js";
import { Commands, commentOf, packed, standardComment } from "../attributes/index.js";
import { Dictionary } from "../attributes/index.js";
import { readAttributes } from "../attributes/index.js";

/** @typedef {readonly import("../attributes/index.js").Attribute[]} Attributes */

/**
 * What a file says of its layer.
 * @typedef {object} FileSays
 * @property {readonly import("../attributes/index.js").Said[] | null} items of each item; null of a drill file
 * @property {Map<number, Attributes>} apertures of each aperture, block or tool, by its number
 * @property {Map<number, import("../attributes/index.js").Objects>} blocks
 * @property {Map<number, string>} macros the name of the macro of each aperture that has one
 * @property {string[]} attributes file attributes that stand in comments, as the station's answer to `attributes` has them: no
 *   station keeps them
 * @property {string[]} comments those of its header that are no attributes, each once
 */

// As many comments are kept.
const COMMENTS = 50;
const DEFINITION = /^D(\d+)([^,]+)/;
const STANDARD = /^[CROP]$/;
const END = /^M0*2$/;
const TOOL = /^T0*(\d+)\D*C/;
const ATTRIBUTE = /^\s*#@!\s*(T[ADF])([^]*)$/;

/** @param {string} text a character for each byte */
const words = (text) => utf8(latin1Bytes(text)).trim();

// File attributes by their names, those that come later in place of those before, and comments.
class Header {
  constructor() {
    /** @type {Map<string, string>} */
    this.attributes = new Map();
    /** @type {Set<string>} */
    this.comments = new Set();
  }

  /** @param {string} text what stands behind TF */
  attribute(text) {
    const whole = words(text);
    const [name = ""] = whole.split(",");
    this.attributes.set(name, whole);
  }

  /** @param {string} text */
  comment(text) {
    const whole = words(text);
    if (whole && this.comments.size < COMMENTS) this.comments.add(whole);
  }

  get lists() {
    return { attributes: [...this.attributes.values()], comments: [...this.comments] };
  }
}

/** @param {Uint8Array} bytes @returns {FileSays} */
function ofGerber(bytes) {
  const { items, apertures, blocks } = readAttributes(bytes), commands = new Commands(latin1(bytes)), header = new Header();
  /** @type {Map<number, string>} */
  const macros = new Map();
  while (commands.next()) {
    if (commands.isExtended) {
      const { name, text } = commands.extended(), [, number, template] = name === "AD" && DEFINITION.exec(packed(text)) || [];
      if (template && !STANDARD.test(template)) macros.set(Number(number), template);
      continue;
    }
    const comment = commentOf(commands.text), attribute = comment === null ? null : standardComment(comment);
    if (attribute?.name === "TF") header.attribute(attribute.text);
    else if (comment !== null && !attribute) header.comment(comment);
    else if (commands.text.startsWith("M") && END.test(packed(commands.text))) break;
  }
  return { items, apertures, blocks, macros, ...header.lists };
}

/** @param {Uint8Array} bytes @returns {FileSays} */
function ofDrill(bytes) {
  const header = new Header(), dictionary = new Dictionary();
  /** @type {Map<number, Attributes>} */
  const tools = new Map();
  let isHeader = true;
  for (const line of latin1(bytes).split(/[\r\n]+/)) {
    const at = line.indexOf(";"), code = (at < 0 ? line : line.slice(0, at)).replace(/[ \t]/g, ""), comment = at < 0 ? "" : line.slice(at + 1);
    const [, command, said = ""] = ATTRIBUTE.exec(comment) ?? [], tool = isHeader && TOOL.exec(code);
    if (tool) tools.set(Number(tool[1]), dictionary.apertures);
    if (code === "%" || code === "M95") isHeader = false;
    if (code === "M30") break;
    if (command === "TF") header.attribute(said);
    else if (command === "TA") dictionary.set("TA", said.trimEnd());
    else if (command) dictionary.drop(said.trim());
    else if (isHeader) header.comment(comment);
  }
  return { items: null, apertures: tools, blocks: new Map(), macros: new Map(), ...header.lists };
}

/**
 * What the file of a layer says of it.
 * @param {"gerber" | "drill"} kind
 * @param {Uint8Array} bytes a file that a station has loaded
 * @returns {FileSays}
 * @throws {import("../attributes/index.js").NotJoined} where no station loads the Gerber file
 */
export function fileSays(kind, bytes) {
  return kind === "drill" ? ofDrill(bytes) : ofGerber(bytes);
}
