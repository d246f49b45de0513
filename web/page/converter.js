// Conversions of refused files, and archives that are unpacked, in a worker of their own, so that the page never waits for them. The
// worker is started when there is something to do, and ended where it is at work and nobody waits for it any more.

import { Link } from "./station.js";
import { textOf } from "./dom.js";
import { unpacked } from "./contents.js";

export class Converter {
  constructor() {
    /** @type {Link | null} */
    this.link = null;
    // What the worker is started of, unpacked when it is first needed.
    /** @type {Promise<string> | null} */
    this.source = null;
    this.count = 0;
  }

  // What `kind` of web/worker/converting_worker.js answers to a message; it fails where the worker ends before.
  /** @template T @param {string} kind @param {object} message @param {Transferable[]} over @returns {Promise<T>} */
  async call(kind, message, over = []) {
    this.source ??= unpacked(textOf("converting-worker")).then((bytes) => new TextDecoder().decode(bytes));
    const source = await this.source;
    this.link ??= this.start(source);
    const { link } = this;
    this.count++;
    try {
      return await link.call(kind, message, over);
    } finally {
      if (this.link === link) this.count--;
    }
  }

  // The same, in place of what is still under way.
  /** @template T @param {string} kind @param {object} message @returns {Promise<T>} */
  instead(kind, message) {
    this.stop();
    return this.call(kind, message);
  }

  /** @param {string} source */
  start(source) {
    this.count = 0;
    const link = new Link(source, () => {}, () => {
      if (this.link === link) this.link = null;
    });
    return link;
  }

  // What is under way is converted no further.
  stop() {
    if (this.count) this.link?.end("stopped");
  }
}
