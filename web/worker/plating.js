// The holes of a layer with plating and those without, each as a picture: a station apart has the layer twice, without the items of
// the one kind and of the other.

import { Station, headOf, itemsOf } from "../station/index.js";
import { pictureOf } from "./pictures.js";

const text = new TextEncoder();

export class Plating {
  /** @param {WebAssembly.Module} compiled */
  constructor(compiled) {
    this.compiled = compiled;
    // The station apart for a layer, by its name, and the text of which it is.
    /** @type {Map<string, { key: string, file: Uint8Array, apart: Station }>} */
    this.known = new Map();
  }

  // The pictures of a drill layer in a window: of the items of all other tools, and of those of tools without plating; null where the
  // page has no memory for that.
  /** @param {Station} station @param {string} name @param {number[]} bare @param {string} window */
  parts(station, name, bare, window) {
    try {
      const apart = this.apart(station, name, new Set(bare));
      if (apart.apply(text.encode(window))) return null;
      /** @param {string} part */
      const plotted = (part) => (apart.apply(text.encode(`plot ${part} apart`)) === 0 ? pictureOf(apart.file) : null);
      const plated = plotted("plated"), without = plotted("bare");
      return plated && without && { plated, bare: without };
    } catch (fault) {
      if (fault instanceof RangeError || fault instanceof Refused) return null;
      throw fault;
    }
  }

  /** @param {Station} station @param {string} name @param {Set<number | null>} bare the tools */
  apart(station, name, bare) {
    if (station.apply(text.encode(`write ${name} apart`))) throw new Refused();
    const { file } = station, known = this.known.get(name), key = [...bare].join(" ");
    if (known?.key === key && known.file.length === file.length && known.file.every((byte, at) => byte === file[at])) return known.apart;
    known?.apart.close();
    const apart = new Station(this.compiled, 1);
    /** @type {{ plated: number[], bare: number[] }} */
    const places = { plated: [], bare: [] };
    [...itemsOf(station, name)].forEach((item, place) => places[bare.has(headOf(item).number) ? "plated" : "bare"].push(place));
    for (const [part, left] of Object.entries(places)) {
      if (apart.apply(text.encode(`load ${part} drill apart`), file)) throw new Refused();
      for (const place of left.reverse()) if (apart.apply(text.encode(`delete ${part} ${place}`))) throw new Refused();
    }
    this.known.set(name, { key, file, apart });
    return apart;
  }
}

/** The station apart refuses what it is asked to do. */
class Refused extends Error {}
