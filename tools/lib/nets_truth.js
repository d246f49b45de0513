// What the nets of a board should be: by a netlist, by the attributes of its Gerber files, or by nothing.

import { basename } from "node:path";
import { refusalText } from "../../web/convert/index.js";
import {
  alignmentOf, alignmentWords, copiesAt, copyName, counted, isEnough, isNetlist, layerReader, numbersOf, placeWords,
  pointsOfAttributes, pointsOfNetlist, readNetlist, shifted,
} from "../../web/nets/index.js";
import { Failure } from "./command.js";
import { missingLines, unknownLines } from "./nets_missing.js";
import { readBytes } from "./files.js";

/** How many refused lines of a netlist are told. */
const MOST_TOLD = 20;

/** @typedef {import("../../web/nets/index.js").Alignment} Alignment */
/** @typedef {import("../../web/nets/index.js").Netlist & {path: string}} NamedNetlist */

/** Points of nets, and where they come from. */
export class Truth {
  /**
   * The netlist of a file.
   * @param {string} path
   * @returns {NamedNetlist}
   * @throws {Failure} with each refused line
   */
  static netlist(path) {
    const bytes = readBytes(path), { netlist, refusals } = readNetlist(bytes);
    if (netlist) return { ...netlist, path };
    const told = refusals.slice(0, MOST_TOLD).map((refusal) => `${path}: ${refusalText(refusal)}`);
    if (refusals.length > MOST_TOLD) told.push(`${path}: and ${refusals.length - MOST_TOLD} more`);
    if (!isNetlist(bytes)) told.unshift("it does not look like a netlist in the form IPC-D-356");
    throw new Failure(told.join("\n"));
  }

  /**
   * @param {import("./nets_board.js").NetsBoard} board
   * @param {NamedNetlist | null} netlist
   */
  constructor(board, netlist) {
    this.board = board;
    this.netlist = netlist;
    this.isGiven = false;
    /** @type {Alignment | null} */
    this.alignment = null;
    /** @type {{x: number, y: number}[]} the shifts of the copies of a panel, if there are several */
    this.copies = [];
    this.attributes = netlist ? [] : pointsOfAttributes(board.said(), board.unplatedCentres());
  }

  get isNone() {
    return !this.netlist && !this.attributes.length;
  }

  /**
   * Stops where copper or holes are missing that something counts on, but with `isPartial`.
   * @param {import("../../web/board/index.js").BoardFile[]} others the files that are not recognised
   * @param {boolean} isPartial
   * @throws {Failure} with the list
   */
  checkWhole(others, isPartial) {
    const { board, netlist, attributes } = this;
    board.missing = missingLines(board, netlist, attributes);
    if (!board.missing.length || isPartial) return;
    throw new Failure(["without these the nets are not those of the board; --partial compares the rest", ...board.missing,
      ...unknownLines(board, others)].join("\n"));
  }

  /**
   * Finds how the netlist lies on the board.
   * @param {[number, number] | null} given the shift that is given
   * @throws {Failure} where it lies on it in no way
   */
  align(given) {
    if (!this.netlist) return;
    const netlist = this.onWhatIsThere(this.netlist), centres = this.board.pads();
    this.isGiven = given !== null;
    const alignment = given ? shifted(netlist, centres, { x: given[0], y: given[1] }) : alignmentOf(netlist, centres);
    this.alignment = alignment;
    this.copies = copiesAt(netlist, centres, alignment, this.board.copies());
    if (given || isEnough(alignment)) return;
    throw new Failure(`${netlist.path}: nothing is compared, since under each shift, quarter turn and mirror, in inches and in `
      + `mm, less than nine of ten points lie on centres of pads and holes; the best is ${this.alignmentWords(this.netlist)}; --shift X Y `
      + "compares them in any case");
  }

  // The netlist without the points of copper that is not there: its pads are not either.
  /** @param {NamedNetlist} netlist */
  onWhatIsThere(netlist) {
    const { board: { stack } } = this, copper = numbersOf(stack), layersOf = layerReader(netlist, copper);
    return { ...netlist, points: netlist.points.filter((point) => layersOf(point).some((number) => copper.numbers.includes(number))) };
  }

  // How the netlist lies on the board, which `align` finds.
  aligned() {
    if (!this.alignment) throw new Error("the netlist is asked for before it is aligned");
    return this.alignment;
  }

  /** @param {NamedNetlist} netlist */
  alignmentWords(netlist) {
    const alignment = this.aligned();
    return alignmentWords(alignment, netlist, `${placeWords(alignment)} mm${this.isGiven ? ", as given" : ""}`);
  }

  /** The points, those of a netlist where they lie on the board. */
  points() {
    const { netlist } = this;
    if (!netlist) return this.attributes;
    const alignment = this.aligned();
    /** @param {Alignment} at */
    const pointsAt = (at) => pointsOfNetlist(netlist, numbersOf(this.board.stack), at);
    if (this.copies.length < 2) return pointsAt(alignment);
    return this.copies.flatMap((copy) => pointsAt({ ...alignment, ...copy })
      .map((point) => ({ ...point, net: point.net && copyName(point.net, copy.x, copy.y) })));
  }

  /**
   * What was compared, in a sentence.
   * @param {import("./nets_answer.js").Answer} answer
   */
  words({ points }) {
    if (this.isNone) return "compared with nothing: no netlist is given (--ipc), and the Gerber files name no nets";
    if (!this.netlist) return `compared with the attributes of the Gerber files: ${counted(points.length, "point")}`;
    const { path, leftOut } = this.netlist;
    const skipped = [...leftOut].map(([code, count]) => `; ${counted(count, "record")} ${code} left out`).join("");
    const left = points.filter(({ layers }) => !layers.length).length;
    const unchecked = left ? `; ${counted(left, "point")} of missing copper not checked` : "";
    const copies = this.copies.length > 1 ? `; ${this.copies.length} copies of a panel` : "";
    return `compared with ${basename(path)}: ${counted(points.length - left, "point")}${unchecked}, ${this.alignmentWords(this.netlist)}${copies}${skipped}`;
  }
}
