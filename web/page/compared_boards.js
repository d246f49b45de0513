// Two boards compared by a worker of their own, pair after pair of their layers; a file that the station refuses is compared as what
// it can be converted to.

import { Converter } from "./converter.js";
import { Link } from "./station.js";
import { textOf } from "./dom.js";
import { plural } from "../board/index.js";
import { refusalWords } from "../machine/index.js";
import { unpacked } from "./contents.js";

/** @typedef {import("./compared_given.js").Given} Given */
/** @typedef {import("../worker/index.js").PairRow} PairRow */
/** @typedef {import("../worker/index.js").PlaceShown} PlaceShown */
/** @typedef {{ title: string, file: string }} Alone a layer that only one of the boards has */
/**
 * What is known so far: `rows` has null for a pair that is still to be compared.
 * @typedef {object} Found
 * @property {Given[]} sides
 * @property {number} pitch
 * @property {{ title: string, files: string[] }[]} pairs
 * @property {(PairRow | null)[]} rows
 * @property {Alone[]} onlyFirst
 * @property {Alone[]} onlySecond
 * @property {string[]} notes what was left out, and not read
 * @property {string} summary empty until all are compared
 */
/** @typedef {{ place: number, kind: Board.LayerKind, name: string, bytes: Uint8Array, reply: string }} RefusedLayer */
/** @typedef {import("../worker/index.js").Converted} Converted */

/** Why a comparison ends for another one. */
export const OVER = "another comparison";

export class ComparedBoards {
  // `heard` hears of each pair that is compared.
  /** @param {(found: Found) => void} heard */
  constructor(heard) {
    this.heard = heard;
    this.converter = new Converter();
    /** @type {Link | null} */
    this.link = null;
    /** @type {Found | null} */
    this.found = null;
  }

  end() {
    const { link } = this;
    this.link = null;
    this.found = null;
    link?.end(OVER);
    this.converter.stop();
  }

  // Compares two boards, in place of what was compared before; done when all pairs are, or another comparison began.
  /** @param {Given[]} sides @param {number} pitch */
  async compare(sides, pitch) {
    this.end();
    const [source, module] = await Promise.all(["comparing-worker", "module"].map((id) => unpacked(textOf(id))));
    // (another one may have begun meanwhile)
    this.end();
    /** @type {Link} */
    const link = new Link(new TextDecoder().decode(source), () => {}, () => {});
    this.link = link;
    await link.call("open", { module });
    /** @type {string[]} */
    const notes = [];
    for (const [at, side] of sides.entries()) notes.push(...await this.open(link, at, side));
    const answer = /** @type {Pick<Found, "pairs" | "onlyFirst" | "onlySecond">} */ (await link.call("pairs"));
    if (this.link !== link) return;
    /** @type {Found} */
    const found = { sides, pitch, ...answer, rows: answer.pairs.map(() => null), notes, summary: "" };
    this.found = found;
    this.heard(found);
    for (const at of found.pairs.keys()) {
      found.rows[at] = await link.call("pair", { at, pitch });
      if (this.link !== link) return;
      this.heard(found);
    }
    const { words } = /** @type {{ words: string }} */ (await link.call("summary", { outcomes: found.rows.flatMap((row) => row?.outcome ?? []) }));
    if (this.link !== link) return;
    found.summary = words;
    this.heard(found);
  }

  // Opens a board in the worker; what was left out of it.
  /** @param {Link} link @param {number} at @param {Given} side */
  async open(link, at, { title, files, board, depth, faults = [] }) {
    const { count, leftOut, refused } = /** @type {{ count: number, leftOut: string[], refused: RefusedLayer[] }} */ (
      await link.call("side", { at, title, files, board, depth }));
    if (!count) throw new Error(faults[0] ?? `no layer is recognised among the files of ${title}`);
    for (const one of refused) await this.mend(link, at, one);
    const name = "AB"[at];
    return [...leftOut.length ? [`${name}: left out, since they are no layers: ${leftOut.join(", ")}.`] : [], ...faults.map((fault) => `${name}: ${fault}`)];
  }

  // A file that is refused is converted, if that needs no choice; else it is told why it is refused.
  /** @param {Link} link @param {number} at @param {RefusedLayer} refused */
  async mend(link, at, { place, kind, bytes, reply }) {
    const { converted } = /** @type {{ converted: Converted }} */ (await this.converter.call("first", { layer: kind, bytes }));
    const made = converted?.bytes ?? null, changes = converted?.changes ?? [], why = refusalWords(reply, bytes, kind);
    const words = made ? `it was converted to be read: ${plural(changes.length, "change")}: ${changes.join("; ")}` : why;
    const { reply: again } = /** @type {{ reply: string | null }} */ (await link.call("mend", { at, place, bytes: made, words }));
    if (made && again !== null) await link.call("mend", { at, place, bytes: null, words: why });
  }

  // A place with its picture; null where the comparison is over.
  /** @param {{ pair: number, place: number, width: number, height: number, zoom?: number }} asked @returns {Promise<PlaceShown | null>} */
  async place(asked) {
    const { link } = this;
    if (!link || link.isOver) return null;
    const shown = /** @type {PlaceShown} */ (await link.call("place", asked));
    return this.link === link ? shown : null;
  }
}
