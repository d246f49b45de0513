// A module and all that it imports as one text without imports: each module becomes the body of a function that answers
// what it exports, those that others need before them. Only the forms that web/ uses are read. A floor's index, which hands
// names of other modules on and does nothing else, is no part of the text: what is imported of it comes from the module that
// has it, and the floor's other modules stay out.

import { readFileSync } from "node:fs";
import { dirname, resolve } from "node:path";

const IMPORT = /^import (?:(\* as \w+)|\{([^}]*)\}) from "([^"]+)";$/gm;
const REEXPORT = /^export \{([^}]*)\} from "([^"]+)";$/gm;
const EXPORTED = /^export (?:async )?(?:function\*?|class|const|let) (\w+)/gm;
// Several of one line, as 'export const MM = "mm", INCH = "inch";'.
const SEVERAL = /^export const (\w+ = "\w*"(?:, \w+ = "\w*")+);$/gm;
const LIST = /^export \{([^}]*)\};$/gm;
// Comments, for who reads the modules, and those that give types, for tsc: both are left out. (A text over several lines may
// have no line that begins as a comment does.)
const LINE_COMMENTS = /^ *\/\/.*\n/gm;
// What lines are indented by, and lines with nothing: those of a text over several lines too, so no such text may need them.
const INDENTS = /^ +/gm, EMPTY = /\n{2,}/g;
const TYPES = /^ *\/\*\*(?:[^*]|\*(?!\/))*\*\/\n/gm;
// Those within a line, as of a cast.
const INLINE_TYPES = /\/\*\* @\w+ \{[^*\n]*\} ?\*\/ ?/g;

/**
 * 'a, b as c' as [[a, a], [b, c]].
 * @type {(list: string) => [from: string, to: string][]}
 */
const pairs = (list) => list.split(",").map((part) => part.trim()).filter((part) => part).map((part) => {
  const [name = "", alias = name] = part.split(/\s+as\s+/);
  return [name, alias];
});

/** @typedef {[path: string, name: string]} Origin of a name: its module, and what it is called there */

class Inliner {
  constructor() {
    /** @type {Map<string, string>} those that modules have in the whole, by their paths */
    this.names = new Map();
    /** @type {Map<string, Set<string>>} what each exports, by its name */
    this.exports = new Map();
    /** @type {Map<string, Map<string, Origin> | null>} what indexes hand on, by their paths */
    this.indexes = new Map();
    /** @type {string[]} */
    this.open = [];
    /** @type {string[]} */
    this.texts = [];
  }

  /**
   * Of each name that an index hands on, the path of the module that it is from, and its name there.
   * @param {string} path
   * @returns {Map<string, Origin> | null} null of a module that does anything else
   */
  index(path) {
    const known = this.indexes.get(path);
    if (known !== undefined) return known;
    const text = /** @type {string} */ (readFileSync(path, "utf8")).replace(TYPES, "").replace(INLINE_TYPES, "").replace(LINE_COMMENTS, "");
    const handed = [...text.matchAll(REEXPORT)].flatMap(([, list = "", source = ""]) =>
      pairs(list).map(([from, to]) => /** @type {[string, Origin]} */ ([to, [resolve(dirname(path), source), from]])));
    const found = handed.length && !text.replace(REEXPORT, "").trim() ? new Map(handed) : null;
    this.indexes.set(path, found);
    return found;
  }

  /**
   * The module that a name is from, and the name there: past indexes.
   * @param {string} path
   * @param {string} name
   * @returns {Origin}
   */
  origin(path, name) {
    const found = this.index(path)?.get(name);
    return found ? this.origin(found[0], found[1]) : [path, name];
  }

  /**
   * Names that a module takes of another one, by the names in the whole of the modules that they are from.
   * @param {string} path
   * @param {string} source
   * @param {[from: string, to: string][]} wanted
   */
  taken(path, source, wanted) {
    /** @type {Map<string, [from: string, to: string][]>} */
    const found = new Map();
    for (const [from, to] of wanted) {
      const [origin, name] = this.origin(resolve(dirname(path), source), from), module = this.add(origin);
      if (!this.exports.get(module)?.has(name)) throw new Error(`${path}: ${origin} does not export ${name}`);
      found.set(module, [...found.get(module) ?? [], [name, to]]);
    }
    return [...found];
  }

  /**
   * The name that the module's exports have in the whole.
   * @param {string} path
   * @returns {string}
   */
  add(path) {
    if (this.open.includes(path)) throw new Error(`modules import one another: ${[...this.open, path].join(" -> ")}`);
    const known = this.names.get(path);
    if (known) return known;
    this.open.push(path);
    /** @type {string[]} */
    const exported = [];
    const bare = /** @type {string} */ (readFileSync(path, "utf8")).replace(TYPES, "").replace(INLINE_TYPES, "").replace(LINE_COMMENTS, "");
    let text = bare.replace(IMPORT, (_, whole, list, source) => {
      if (whole) return `const ${whole.slice(5)} = ${this.add(resolve(dirname(path), source))};`;
      return this.taken(path, source, pairs(list)).map(([name, names]) =>
        `const { ${names.map(([from, to]) => from === to ? from : `${from}: ${to}`).join(", ")} } = ${name};`).join("\n");
    });
    text = text.replace(REEXPORT, (_, list, source) => {
      for (const [name, names] of this.taken(path, source, pairs(list))) exported.push(...names.map(([from, to]) => `${to}: ${name}.${from}`));
      return "";
    });
    text = text.replace(LIST, (_, list) => {
      exported.push(...pairs(list).map(([from, to]) => `${to}: ${from}`));
      return "";
    });
    for (const [, list = ""] of text.matchAll(SEVERAL)) exported.push(...[...list.matchAll(/(\w+) =/g)].map(([, name = ""]) => name));
    for (const [, name = ""] of text.matchAll(EXPORTED)) if (!exported.includes(name)) exported.push(name);
    text = text.replace(/^export (?=(?:async )?(?:function\*?|class|const|let) )/gm, "");
    const left = /^(?:import|export)\b.*/m.exec(text);
    if (left) throw new Error(`${path}: this form is not read: ${left[0]}`);
    const name = `module${this.names.size}`;
    this.names.set(path, name);
    this.open.pop();
    this.exports.set(name, new Set(exported.map((word) => word.replace(/:.*/, ""))));
    this.texts.push(`const ${name} = (() => {\n${text.replace(INDENTS, "").replace(EMPTY, "\n")}\nreturn { ${exported.join(", ")} };\n})();\n`);
    return name;
  }
}

/** @param {string} path @returns {string} */
export function inlined(path) {
  const inliner = new Inliner();
  inliner.add(resolve(path));
  return `"use strict";\n${inliner.texts.join("")}`;
}
