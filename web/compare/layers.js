// Two layers compared: by their items, then by what the files say beside them, then by pixels.

import { NotCanonical, Shapes, readCanonical } from "./canonical.js";
import { comparedSaid } from "./attributes.js";
import { changesOf } from "./changes.js";
import { Extents } from "./extents.js";
import { matched } from "./matching.js";
import { reordered } from "./orders.js";
import { placesOf } from "./places.js";
import { boxesOf } from "./where.js";
import { joined } from "../board/index.js";

/** @typedef {import("./changes.js").Change} Change */

/**
 * What came of comparing two layers:
 * - `same`: they paint the same. Their items are equal, or differ in nothing but the numbers of apertures, or an order that
 *   changes nothing;
 * - `same picture`: items differ, and no pixel of the pictures does;
 * - `differs`: pixels differ; or items do, and no pictures were compared.
 * @typedef {"same" | "same picture" | "differs"} Outcome
 */

export const SAME = "same";
export const SAME_PICTURE = "same picture";
export const DIFFERS = "differs";

/** Of more changes than these a long stroke askew is taken by its box, and not in pieces. */
const MOST_FINE = 5000;

/** @param {Uint8Array} one @param {Uint8Array} other */
function isEqual(one, other) {
  if (one.length !== other.length) return false;
  for (let at = 0; at < one.length; at++) if (one[at] !== other[at]) return false;
  return true;
}

/**
 * A layer that is compared.
 * @typedef {object} Given
 * @property {"gerber" | "drill"} kind
 * @property {Uint8Array} text its canonical text
 * @property {Uint8Array} bytes the file that it was loaded from
 */

/** Two layers compared by their items. */
export class Compared {
  /**
   * @param {Given} first
   * @param {Given} second
   * @throws {NotCanonical}
   */
  constructor(first, second) {
    if (first.kind !== second.kind) throw new NotCanonical("a Gerber layer and a drill layer");
    const shapes = new Shapes();
    this.first = readCanonical(first.kind, first.text, shapes);
    this.second = readCanonical(second.kind, second.text, shapes);
    this.shapes = shapes;
    this.extents = new Extents(shapes);
    /** Whether the texts are equal, with the file's attributes. */
    this.isSameText = isEqual(first.text, second.text);
    const matching = matched(this.first.items, this.second.items);
    /** @type {Change[]} */
    this.changes = this.isSameText ? [] : this.found(matching);
    /** What the files say that paints nothing. */
    this.said = comparedSaid({ layer: this.first, bytes: first.bytes }, { layer: this.second, bytes: second.bytes }, matching.places);
    this.isSameOrder = matching.places.every((place, at) => place === at);
    /** @type {Outcome} */
    this.outcome = this.changes.length ? DIFFERS : SAME;
    this.places = this.changes.length ? this.placed(null) : [];
    /** @type {import("./pixels.js").Difference | null} */
    this.difference = null;
  }

  /** @param {import("./matching.js").Matching} matching @returns {Change[]} */
  found(matching) {
    const { items: one } = this.first, { items: other } = this.second, changes = changesOf(one, other, matching);
    for (const change of changes) change.boxes = boxesOf(change, one, other, this.extents, changes.length <= MOST_FINE);
    const orders = this.first.kind === "drill" ? [] : reordered(one, matching.places, this.shapes, this.extents);
    /** @type {Change[]} */
    const others = orders.map((order) => ({ what: "reordered", parts: [], dx: 0, dy: 0, ...order }));
    return [...changes, ...others];
  }

  /** @param {import("./pixels.js").Difference | null} difference */
  placed(difference) {
    return placesOf(this.changes.flatMap(({ boxes }, owner) => boxes.map((box) => ({ box, owner }))), difference);
  }

  /**
   * The box of all items of both; null where neither has any.
   * @returns {import("../board/index.js").Box | null}
   */
  box() {
    /** @type {import("../board/index.js").Box | null} */
    let box = null;
    for (const item of this.first.items) box = joined([box, this.extents.box(item)]);
    for (const change of this.changes) box = joined([box, ...change.boxes]);
    return box;
  }

  /**
   * Takes the pixels in which the pictures of both differ.
   * @param {import("./pixels.js").Difference} difference
   */
  see(difference) {
    this.difference = difference;
    this.places = this.placed(difference);
    if (difference.count) this.outcome = DIFFERS;
    else if (this.changes.length) this.outcome = SAME_PICTURE;
  }
}
