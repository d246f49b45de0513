// What the program makes of the page's script: its replies, and the text and the items of each layer.

import { latin1 } from "../../bytes/text.js";
import { layOut, ran } from "../saving.js";
import { plainItems } from "../plain_items.js";
import { linesOf } from "./model.js";

// Lines that change nothing of the document: pictures cost, and texts are written to where others stand. The files of
// loads that were refused are none of the script's.
const LOOKING = new Set(["plot", "redraw", "write"]);
const verbOf = (line) => /\S+/.exec(line)?.[0] ?? "";

export class Truth {
  // A folder with the files that scripts load.
  constructor(folder) {
    this.folder = folder;
    this.files = new Set();
    this.known = new Map();
  }

  add(name, bytes) {
    this.files.add(name);
    layOut([[name, bytes]], this.folder);
  }

  lacks(script) {
    return linesOf(script).some(({ line, refused }) => refused === null && verbOf(line) === "load" && !this.files.has(line.split(/\s+/)[3]));
  }

  // Runs a script of the page: { lines, layers }, each line with the program's reply, each layer with its text and the words
  // of its items; `faults` are lines that the program answers otherwise.
  of(script) {
    const lines = linesOf(script).filter(({ line, refused }) => !LOOKING.has(verbOf(line)) && !(refused !== null && verbOf(line) === "load"));
    const names = lines.filter(({ line, refused }) => refused === null && verbOf(line) === "load").map(({ line }) => line.split(/\s+/)[1]);
    const text = [...lines.map(({ line }) => line), ...names.map((name) => `write ${name} own-${name}`)].map((line) => `${line}\n`).join("");
    const { replies, read } = ran(new Map([["script", Buffer.from(text, "latin1")]]), ["script", "--depth", "1000"], this.folder);
    const faults = [];
    lines.forEach((each, at) => {
      each.reply = replies[at];
      const isWell = each.refused === null ? /^ok/.test(each.reply) : each.reply === each.refused;
      if (!isWell) faults.push(`line ${at + 1}, ${each.line}: ${each.reply} by the program, ${each.refused ?? "ok"} on the page`);
    });
    return { lines, faults, layers: new Map(names.map((name) => [name, this.layer(name, read(`own-${name}`))])) };
  }

  // A layer of a text; those that did not change are not read again.
  layer(name, bytes) {
    const text = latin1(bytes), before = this.known.get(name);
    if (before?.text === text) return before;
    const made = { text, items: plainItems(bytes) };
    this.known.set(name, made);
    return made;
  }
}
