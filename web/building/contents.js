// A built page with a board inside it, which it opens when it begins.

import { createHash } from "node:crypto";
import { gzipSync } from "node:zlib";

const EMPTY = '<script type="application/json" id="contents">null</script>';

/**
 * What a page opens: the files of a board; lines of a script that it runs then, those that load with their files; PBM
 * pictures beside the layers, each with its window as a line; and the window of pictures that are opened later.
 * @typedef {object} Contents
 * @property {string} title what stands at the head of the page
 * @property {{name: string, bytes: Uint8Array}[]} files
 * @property {{line: string, bytes?: Uint8Array}[]} [lines]
 * @property {{name: string, layer: string, window: string, bytes: Uint8Array}[]} [pictures]
 * @property {string | null} [window]
 */

/**
 * @param {{bytes?: Uint8Array}} part
 * @returns {{packed?: string}}
 */
export function packed({ bytes, ...rest }) {
  return bytes ? { ...rest, packed: gzipSync(bytes, { level: 9 }).toString("base64") } : rest;
}

/**
 * @param {string} page what web/build made
 * @param {Contents} contents
 * @returns {string} the page with them
 */
export function withContents(page, { title, files, lines = [], pictures = [], window = null }) {
  const at = page.indexOf(EMPTY);
  if (at < 0) throw new Error("the page has no room for files, or has some already");
  const held = { files: files.map(packed), lines: lines.map(packed), pictures: pictures.map(packed), window };
  // The page keeps work on other boards under another name.
  const id = createHash("sha256").update(JSON.stringify(held)).digest("hex").slice(0, 16);
  const text = JSON.stringify({ title, id, ...held }).replace(/</g, "\\u003c");
  return `${page.slice(0, at)}${EMPTY.replace("null", () => text)}${page.slice(at + EMPTY.length)}`;
}
