// The editor in a page with a board inside it: one file, with all that it needs.

import { readFileSync } from "node:fs";
import { withContents } from "../../web/building/index.js";
import { Failure } from "./command.js";
import { messageOf } from "./faults.js";

// Where the page's pictures of the board stand: before all else in its left panel. Its policy allows no picture but those.
const PANEL = /(<nav id="left"[^>]*>\n?)/, POLICY = "default-src 'none'; ";

/**
 * A picture on a page: what it shows, and its PNG file.
 * @typedef {{title: string, png: Buffer}} Shown
 */

/** @param {Shown} shown */
const imageOf = ({ title, png }) => `<p><img width="100%" alt="${title}" title="${title}" src="data:image/png;base64,${png.toString("base64")}"></p>`;

// The page with pictures, if it has a left panel.
/** @param {string} page @param {Shown[]} pictures */
function withPictures(page, pictures) {
  if (!pictures.length || !PANEL.test(page)) return page;
  const section = `<section id="sides"><details open><summary>As it will be made</summary>\n${pictures.map(imageOf).join("\n")}\n</details></section>\n`;
  return page.replace(POLICY, `${POLICY}img-src data:; `).replace(PANEL, (panel) => `${panel}${section}`);
}

/**
 * A page that opens a board when it begins.
 * @param {string} page the path of the page without a board
 * @param {import("../../web/building/index.js").Contents} contents
 * @param {Shown[]} pictures of the board; their titles are the tool's own words
 * @returns {string}
 * @throws {Failure} where it has no room for a board
 */
export function pageOf(page, contents, pictures) {
  const text = readFileSync(page, "utf8");
  try {
    return withContents(withPictures(text, pictures), contents);
  } catch (fault) {
    throw new Failure(`${page}: ${messageOf(fault)}; --page names the one without a board, camplot.html`);
  }
}
