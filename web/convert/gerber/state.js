/**
 * What the commands of a file have told so far, and what of it is written.
 *
 * @typedef {import("../report.js").Refusal} Refusal
 * @typedef {import("../exact.js").Rational} Rational
 */

import { Failure, Unsaid } from "../report.js";
import { ZERO, equal, isZero, rational } from "../exact.js";
import { Cutter } from "./cut.js";
import { Dictionary } from "./dictionary.js";
import { formOfOptions } from "./form.js";
import { Operations } from "./operations.js";
import { Output } from "./output.js";

const ONE = rational(1n);
export const UNIT_COMMANDS = { mm: "%MOMM*%", inch: "%MOIN*%" };

export class State {
  /**
   * @param {Uint8Array} bytes
   * @param {import("./convert.js").Options} options
   * @param {import("../report.js").Changes} changes
   */
  constructor(bytes, options, changes) {
    this.bytes = bytes;
    this.options = options;
    this.changes = changes;
    /** @type {Refusal[]} */
    this.refusals = [];
    this.cutter = new Cutter(bytes);
    this.output = new Output(bytes);
    this.said = new Operations();
    this.dictionary = new Dictionary(this);
    this.line = 1;
    /** @type {import("./form.js").Form | null} */
    this.form = null;
    /** The format that the options give, whether or not the file has one. */
    this.givenForm = options.format ? formOfOptions(options.format, options.zeros) : null;
    /** @type {"mm" | "inch" | null} */
    this.unit = null;
    this.isUnitMissing = false;
    this.areQuadrantsSought = false;
    /** The point, in steps of the format. */
    this.x = 0;
    this.y = 0;
    /** The last operation's code, as it was read and as it was written; 0 where there was none. */
    this.lastCode = this.writtenCode = 0;
    this.mode = this.writtenMode = 1;
    /** 74, 75, or 0 where neither was told. */
    this.quadrants = this.writtenQuadrants = 0;
    this.inRegion = false;
    /** Whether coordinates stay as they stand: the format is one that camplot reads, and the unit is told. */
    this.readsPlaces = false;
    /** The number that was selected last, what it was defined as then, and the number that is selected in what is
     * written; 0 where there is none. */
    this.selected = 0;
    /** @type {import("./dictionary.js").Aperture | null} */
    this.aperture = null;
    this.writtenAperture = 0;
    /** How flashes are mirrored, turned and scaled; the turn in quarters, as it is written, and what is left of it. */
    this.mirror = this.writtenMirror = /** @type {import("./placing.js").Mirror} */ ("N");
    this.quarters = this.writtenQuarters = 0;
    /** @type {Rational} */
    this.turnLeft = ZERO;
    /** @type {Rational} */
    this.scale = ONE;
    /** Whether flashes are turned by quarters alone, and not scaled. */
    this.isUpright = true;
    /** The number that was made for flashes under the settings in force; -1 where there is none. */
    this.readyFlash = -1;
    this.refresh();
  }

  /** @param {Rational} turnLeft @param {Rational} scale */
  setFlashes(turnLeft, scale) {
    this.turnLeft = turnLeft;
    this.scale = scale;
    this.isUpright = isZero(turnLeft) && equal(scale, ONE);
    this.refresh();
  }

  /** Settles which operations with the aperture that is selected stay as they stand. */
  refresh() {
    const { aperture } = this;
    this.readsPlaces = this.form !== null && this.form.isRead && this.unit !== null;
    const isPlain = aperture !== null && this.writtenAperture === aperture.number && this.isUpright &&
      this.mirror === this.writtenMirror && this.quarters === this.writtenQuarters && !this.isOutdated;
    const isKept = isPlain && aperture.isKept;
    this.plainFlash = isKept;
    this.plainDraw = isKept && (aperture.isSolidCircle || aperture.isSolidRectangle);
    this.readyFlash = -1;
    this.plainArc = isKept && aperture.isSolidCircle;
  }

  /** Whether the number that is selected was defined another way since. */
  get isOutdated() {
    return this.aperture !== null && this.dictionary.of(this.selected) !== this.aperture;
  }

  /**
   * Selects an aperture by a word that stays; false where it cannot.
   * @param {number} number
   */
  selectPlain(number) {
    const aperture = this.dictionary.of(number);
    if (aperture === null || aperture.number !== number || !aperture.isKept) {
      return false;
    }
    this.selected = this.writtenAperture = number;
    this.aperture = aperture;
    this.refresh();
    return true;
  }

  /** @param {string} what @param {string} [rounded] */
  change(what, rounded) {
    this.changes.add(what, this.line, rounded);
  }

  /** @param {string} what  cannot be written, and what to do about it */
  refuse(what) {
    this.refusals.push({ line: this.line, what });
  }

  /** @param {import("./form.js").Form} form  as a command or an option tells it */
  tellForm(form) {
    this.form = form;
    this.refresh();
  }

  /** @param {"mm" | "inch"} unit  as a command tells it */
  tellUnit(unit) {
    const { options } = this;
    if (options.unit && unit !== options.unit) {
      throw new Failure(`--unit ${options.unit}: the file has ${unit} on line ${this.line}`);
    }
    if (this.unit !== null && unit !== this.unit) {
      throw new Unsaid("another unit than before: cut the file in two there, since it is two in one");
    }
    this.unit = unit;
    this.refresh();
  }

  /** The unit of lengths, mm where a refusal told that it is missing. */
  get lengthUnit() {
    return this.unit ?? "mm";
  }

  /** The format, which a coordinate has made sure of: without one a draw that is written by its place cannot be. */
  get toldForm() {
    if (this.form === null) {
      throw new Unsaid("a draw before the format (%FS..*%): choose RS-274X");
    }
    return this.form;
  }
}
