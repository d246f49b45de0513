// The report of a comparison: one HTML file with pictures of both boards at each place, which loads nothing. What comes of files is
// text in it, or pixels.

import { COLOURS, sheetsOf } from "./compared_picture.js";

/** @typedef {import("./compared_boards.js").Found} Found */
/** @typedef {import("../worker/index.js").PairRow} PairRow */

/** The sides of a picture in pixels, and so many places of a layer have pictures. */
const PICTURE = { width: 360, height: 270 };
const MOST_PLACES = 60;

// Nothing of a file is in it.
const HEAD = `<!doctype html>
<html lang="en"><head><meta charset="utf-8">
<meta http-equiv="Content-Security-Policy" content="default-src 'none'; img-src data:; style-src 'unsafe-inline'">
<meta name="viewport" content="width=device-width"><title>Two boards compared</title><style>
body { font: 15px/1.45 sans-serif; margin: 2em auto; max-width: 76em; padding: 0 1em; color: #1d2127; background: #fff }
h2 { margin-top: 2em; border-top: 1px solid #ccd; padding-top: 0.6em } figure { display: inline-block; margin: 0 0.6em 0.6em 0 }
figcaption { font-size: 85% } img { display: block; max-width: 100%; image-rendering: pixelated } li, td, th, h3 { overflow-wrap: anywhere }
table { border-collapse: collapse } td, th { text-align: left; vertical-align: top; padding: 0.2em 1.2em 0.2em 0 }
.a { color: #b03a28 } .b { color: #1f62ad }
@media (prefers-color-scheme: dark) { body { color: #dfe3e8; background: #15181c } .a { color: #ff7a66 } .b { color: #5aa9ff } h2 { border-color: #445 } }
</style></head>
`;

/** @param {Blob} blob @returns {Promise<string>} */
const dataUrl = (blob) => new Promise((done, fail) => {
  const reader = new FileReader();
  reader.onload = () => done(String(reader.result));
  reader.onerror = () => fail(reader.error);
  reader.readAsDataURL(blob);
});

// The elements of a document that is not shown, so that it loads no picture.
class Written {
  constructor() {
    this.document = document.implementation.createHTMLDocument("");
    this.body = this.document.body;
  }

  /** @param {string} name @param {Record<string, string | number>} attributes @param {(Node | string)[]} children */
  element(name, attributes, ...children) {
    const made = this.document.createElement(name);
    for (const [key, value] of Object.entries(attributes)) made.setAttribute(key, String(value));
    // (letters that are not printed, and those that turn the way of writing, would show another text)
    made.append(...children.map((child) => (typeof child === "string" ? child.replace(/[\p{Cc}\p{Cf}\p{Cs}]/gu, "\ufffd") : child)));
    return made;
  }

  /** @param {string} name @param {(Node | string)[]} children */
  add(name, ...children) {
    this.body.append(this.element(name, {}, ...children));
  }

  /** @param {string[]} lines */
  list(lines) {
    return this.element("ul", {}, ...lines.map((line) => this.element("li", {}, line)));
  }

  /** @param {OffscreenCanvas} sheet @param {string} caption @param {string} className */
  async figure(sheet, caption, className) {
    const src = await dataUrl(await sheet.convertToBlob({ type: "image/png" })), { width, height } = sheet;
    return this.element("figure", {}, this.element("img", { width, height, alt: caption, src }), this.element("figcaption", { class: className }, caption));
  }
}

// A pair with its places.
/** @param {Written} written @param {import("./compared_boards.js").ComparedBoards} compared @param {PairRow} row @param {number} pair */
async function addPair(written, compared, { title, words, files, besides, places }, pair) {
  written.add("h2", `${title}: ${words}`);
  written.add("p", files.map((file, at) => `${"AB"[at]}: ${file}`).join("; "));
  if (besides.length) written.body.append(written.list(besides));
  for (let place = 0; place < Math.min(places, MOST_PLACES); place++) {
    const shown = await compared.place({ pair, place, ...PICTURE });
    if (!shown) throw new Error("the comparison is over.");
    const { a, b, both } = sheetsOf(shown, COLOURS.dark), more = shown.more ? [`and ${shown.more} more`] : [];
    written.add("h3", `${place + 1}. ${shown.line}`);
    written.body.append(written.list([...shown.changes, ...more]));
    written.add("div", await written.figure(a, "A: what B lacks is red", "a"), await written.figure(b, "B: what A lacks is blue", "b"),
      await written.figure(both, `both, with frames around what changed; pixels of ${shown.window.pitch} nm`, "both"));
  }
  if (places > MOST_PLACES) written.add("p", `${places - MOST_PLACES} more places without pictures`);
}

/**
 * The report as the text of an HTML file.
 * @param {import("./compared_boards.js").ComparedBoards} compared
 * @param {Found} found all of whose pairs are compared
 * @returns {Promise<string>}
 */
export async function reportOf(compared, { sides, rows, onlyFirst, onlySecond, notes, summary }) {
  const written = new Written(), row = (/** @type {string[]} */ ...cells) => written.element("tr", {}, ...cells.map((cell) => written.element("td", {}, cell)));
  written.add("h1", "Two boards compared");
  for (const [at, { title }] of sides.entries()) written.add("p", `${"AB"[at]}: ${title}`);
  written.add("p", summary);
  if (notes.length) written.body.append(written.list(notes));
  const alone = [...onlyFirst.map(({ title, file }) => row(title, "only in A", file)), ...onlySecond.map(({ title, file }) => row(title, "only in B", file))];
  written.add("table", ...rows.flatMap((pair) => pair ? [row(pair.title, pair.words, pair.besides.length ? "with notes below" : "")] : []), ...alone);
  for (const [at, pair] of rows.entries()) if (pair && (!pair.isSame || pair.besides.length)) await addPair(written, compared, pair, at);
  return `${HEAD}${written.body.outerHTML}\n</html>\n`;
}
