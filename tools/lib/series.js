// Many files that one run writes: which of them were written, and which not, where it fails.

/** The files of a run, by their names in a folder. */
export class Series {
  /** @param {string} folder */
  constructor(folder) {
    this.folder = folder;
    /** @type {Set<string>} */
    this.wanted = new Set();
    /** @type {Set<string>} */
    this.written = new Set();
  }

  /**
   * Files that are to be written.
   * @param {string[]} names
   */
  plan(names) {
    for (const name of names) this.wanted.add(name);
  }

  /**
   * A file that is not to be written after all.
   * @param {string} name
   */
  drop(name) {
    this.wanted.delete(name);
  }

  /**
   * A file that was written.
   * @param {string} name
   */
  done(name) {
    this.written.add(name);
  }

  /** What was written and what was not, in lines. */
  lines() {
    const { folder, written, wanted } = this, others = [...wanted].filter((name) => !written.has(name));
    if (!written.size) return [`nothing was written into ${folder}`];
    return [`written into ${folder}: ${[...written].join(", ")}`,
      ...others.length ? [`not written, so that what was there stays: ${others.join(", ")}`] : []];
  }

  /**
   * Writes files; where that fails, the fault has these lines.
   * @template T
   * @param {() => T} act
   * @returns {T}
   */
  during(act) {
    try {
      return act();
    } catch (fault) {
      if (fault instanceof Error) Object.assign(fault, { files: this.lines() });
      throw fault;
    }
  }
}
