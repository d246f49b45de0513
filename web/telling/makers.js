// Who wrote the files of a board, and when: as their attributes have it, else the comments of their headers.

/** @typedef {import("./layers.js").ToldLayer} ToldLayer */

/** @typedef {{program: string | null, date: string | null}} Maker */

// What KiCad writes at the head of drill files, and many programs at that of others.
const DRILL = /^DRILL file \{(.+?)\} date (.+)$/i;
const CREATED = /^(?:created|generated|written) (?:by|with):? (.+?)(?:,? (?:date|on|at):? (.+))?$/i;
// These comments tell how numbers are written.
const FORMAT = /^(?:FORMAT|TYPE)\s*=|^APERTURE (?:LIST|END LIST)|^Aperture macros list|^Gerber Fmt/i;

// So many are shown, and so many letters of each.
const COMMENTS = 10, LONGEST = 200;

const INSTANT = /^(\d{4}-\d\d-\d\d)[T ](\d\d:\d\d(?::\d\d)?)(?:\.\d+)?(Z|[-+]\d\d:?\d\d)?$/;

/**
 * The words of a program, without those that stand twice: `KiCad Pcbnew 8.0.4`.
 * @param {readonly (string | null | undefined)[]} fields its vendor, its name and its version
 * @returns {string | null}
 */
export function programWords(fields) {
  const words = fields.filter((field) => field).join(" ").trim().split(/\s+/);
  return words.filter((word, at) => words.findIndex((other) => other.toLowerCase() === word.toLowerCase()) === at).join(" ") || null;
}

/**
 * A date as it is shown: `2024-09-02 20:14:31 +02:00`; one in another form stays as it is.
 * @param {string} text
 */
export function dateWords(text) {
  const found = INSTANT.exec(text.trim());
  if (!found) return text.trim();
  const [, day, time, zone] = found;
  const zoned = zone && zone !== "Z" ? `${zone.slice(0, 3)}:${zone.slice(-2)}` : zone && "UTC";
  return [day, time, zoned].filter((part) => part).join(" ");
}

/** @param {readonly string[]} comments @returns {Maker} */
function makerInComments(comments) {
  for (const comment of comments) {
    const [, program, date] = DRILL.exec(comment) ?? CREATED.exec(comment) ?? [];
    if (program) return { program: program.trim(), date: date ? dateWords(date) : null };
  }
  return { program: null, date: null };
}

/** @param {ToldLayer} layer @returns {Maker} */
export function makerOf(layer) {
  const program = programWords(layer.attributes.get(".GenerationSoftware") ?? []), [date] = layer.attributes.get(".CreationDate") ?? [];
  const other = makerInComments(layer.says?.comments ?? []);
  return { program: program ?? other.program, date: date ? dateWords(date) : other.date };
}

/**
 * Comments of the headers of drill files that say more than a program, a date and how numbers are written.
 * @param {readonly ToldLayer[]} layers
 * @returns {string[]} each once, the first of them
 */
export function drillComments(layers) {
  const comments = layers.filter(({ kind }) => kind === "drill").flatMap(({ says }) => says?.comments ?? []);
  const more = comments.filter((comment) => !DRILL.test(comment) && !CREATED.test(comment) && !FORMAT.test(comment));
  return [...new Set(more.map((comment) => comment.slice(0, LONGEST)))].slice(0, COMMENTS);
}

// Texts that differ only in small letters as one, with how often each stands.
/** @param {(string | null)[]} texts */
export function counts(texts) {
  /** @type {Map<string, {text: string, count: number}>} */
  const found = new Map();
  for (const text of texts) {
    if (text === null) continue;
    const known = found.get(text.toLowerCase());
    if (known) known.count++;
    else found.set(text.toLowerCase(), { text, count: 1 });
  }
  return [...found.values()];
}

/**
 * When files were written: one date, or from the first to the last. Without zones dates of one form are in the order of their texts.
 * @param {(string | null)[]} dates as `dateWords` gives them
 * @returns {string | null}
 */
export function datesWords(dates) {
  const distinct = counts(dates).map(({ text }) => text);
  if (distinct.length < 2) return distinct[0] ?? null;
  /** @param {string} text */
  const timeOf = (text) => Date.parse(text.replace(/^(\S+) (\S+) (?:UTC|([-+]\S+))$/, (_, day, time, zone) => `${day}T${time}${zone ?? "Z"}`));
  const areInstants = distinct.every((text) => / (?:UTC|[-+]\d\d:\d\d)$/.test(text) && Number.isFinite(timeOf(text)));
  if (!areInstants) return distinct.join("; ");
  const ordered = [...distinct].sort((one, other) => timeOf(one) - timeOf(other)), [first = ""] = ordered, last = ordered.at(-1) ?? first;
  return timeOf(first) === timeOf(last) ? first : `from ${first} to ${last}`;
}
