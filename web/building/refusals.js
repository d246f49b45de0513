// docs/refusals.md as data: of each number its name and what to do, for files of drill layers where those differ.

/**
 * A text in which the tools have the names that they have once installed, and the documents no folder: who reads the page has
 * no copy of the repository.
 * @type {(text: string) => string}
 */
const installed = (text) => text.replace(/\btools\/(\w+)/g, (_, tool) => `camplot-${tool.replaceAll("_", "-")}`)
  .replace(/\bdocs\/(\w+\.md)/g, "camplot's $1");

/**
 * A text of the page as a sentence: one line, without its marks. A `*` in code is Gerber's own and stays.
 * @type {(text: string) => string}
 */
const plain = (text) => installed(text).replace(/\s+/g, " ").replace(/`([^`]*)`|\*/g, "$1").trim();

/**
 * The first sentences of a text, as long as they are of use in a line.
 * @param {string} text
 */
function opening(text) {
  const sentences = plain(text).match(/.*?[.:](?= |$)/g) ?? [plain(text)];
  let told = "";
  for (const sentence of sentences) {
    if (told && told.length + sentence.length > 280) break;
    told += sentence;
  }
  return told.trim().replace(/:$/, ".");
}

const PARAGRAPH = /^\*\*(\d+), ([^*]+?)\.?\*\*((?:,? (?:and )?\*\*\d+, [^*]+\*\*)*)([\s\S]*?)(?=\n\n\*\*\d|\n## |$(?![\s\S]))/gm;

/** @typedef {Record<string, {name: string, text: string}>} Told by the number of the refusal */

/** @param {string} section @param {Told} into */
function paragraphs(section, into) {
  for (const [, number = "", name = "", others = "", text = ""] of section.matchAll(PARAGRAPH)) {
    /** @type {[number: string, name: string][]} */
    const heads = [[number, name]];
    for (const [, each = "", its = ""] of others.matchAll(/\*\*(\d+), ([^*]+?)\.?\*\*/g)) heads.push([each, its]);
    for (const [each, its] of heads) into[each] ??= { name: plain(its), text: opening(text.replace(/^:/, "")) };
  }
}

/** @param {string} page the text of docs/refusals.md */
export function refusalsOf(page) {
  const section = (/** @type {string} */ title) => {
    const at = page.indexOf(`\n## ${title}\n`);
    if (at < 0) throw new Error(`docs/refusals.md has no section "${title}"`);
    const end = page.indexOf("\n## ", at + 4);
    return page.slice(at, end < 0 ? undefined : end);
  };
  /** @type {Told} */
  const general = {};
  /** @type {Told} */
  const drill = {};
  for (const [, number = "", name = "", meaning = "", advice = ""] of section("Lines of a script").matchAll(
    /^\| (\d+) \| ([^|]+) \| ([^|]+) \| ([^|]+) \|$/gm)) {
    general[number] = { name: plain(name), text: `${plain(meaning)}: ${plain(advice)}.` };
  }
  paragraphs(section("Gerber files"), general);
  paragraphs(section("Drill files"), drill);
  for (const [number, told] of Object.entries(drill)) general[number] ??= told;
  return { general, drill };
}
