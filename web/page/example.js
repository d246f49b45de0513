// The board that stands inside every page, to try the page with.

import { contentsOf } from "./contents.js";
import { isBlank } from "../machine/index.js";
import { textOf } from "./dom.js";

// Opens the example as the files of a folder: in the board that is shown where nothing is in it, else next to it.
/** @param {Page.Runner} machine @param {import("./boards.js").Boards} boards */
export async function openExample(machine, boards) {
  const example = await contentsOf(textOf("example"));
  if (!example) return undefined;
  if (!isBlank(machine.state)) await boards.add();
  return boards.take(boards.shown, { files: example.files, areNamed: false, faults: [] });
}
