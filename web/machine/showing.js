// What looks at the station and hands something out: comparisons, texts, plots, and the box of the board.

import { COLOURS, FOUND, inView, ofTwo, withBefore } from "./comparing.js";
import { boxNames } from "./seeking.js";
import { boxOf, joined, plural } from "../board/index.js";
import { DEPTH, layerOf, shownLayers } from "./state.js";
import { acceptedText } from "../nets/index.js";
import { plotPaths } from "./names.js";
import { savedPaths, writtenAs } from "./saved_names.js";
import { carriedLines, losses } from "./attributes.js";
import { pairs } from "./pairs.js";
import { settle } from "./settling.js";
import { tellRefused } from "./refused.js";

// The board beside what it was some steps before; again to go back to the layers.
/** @type {Machine.Kind<"compare">} */
export const compare = {
  begin(turn, { back }) {
    const { comparison, steps, layers } = turn.state;
    const why = steps.group ? "A group is open: end it first."
      : back < 1 || back > steps.done.length || !layers.length ? "There is nothing to compare with." : null;
    if (comparison) turn.set({ comparison: null });
    else if (why) turn.say(why, true);
    if (comparison || why) return turn.finish();
    return turn.ask({ stage: "comparing" }, { kind: "compare", steps: back, colours: COLOURS });
  },
  heard: {
    comparing(turn, { back }, answer) {
      if (!answer.isWhole) turn.say("Not all undone steps could be made again: open the page again.", true);
      else if (!("count" in answer)) turn.say("So many steps cannot be undone.", true);
      else turn.set({ comparison: withBefore(turn.state, back, answer) });
      turn.finish();
    },
  },
};

// The layers and pictures that can be compared, by what stands in a choice for them.
/** @param {Machine.State} state */
export const choices = ({ layers, opened }) => [...layers.slice().reverse(), ...opened]
  .map(({ name, label, ...rest }) => ({ name, label, isOpened: "isOpened" in rest }));

// Any two layers or pictures.
/** @type {Machine.Kind<"compareTwo">} */
export const compareTwo = {
  begin(turn, { names }) {
    turn.set({ comparison: null });
    const { state } = turn, [first, second] = names.map((name) => choices(state).find((choice) => choice.name === name));
    const windows = new Set(state.opened.filter(({ name }) => names.includes(name)).map(({ window }) => window));
    if (!first || !second || windows.size > 1) {
      turn.say(!first || !second ? "Choose two to compare."
        : "These two pictures are of other windows, so their pixels cannot be compared.", true);
      return turn.finish();
    }
    /** @type {[Machine.Compared, Machine.Compared]} */
    const pair = [first, second];
    return turn.ask({ stage: "comparing", pair }, { kind: "compareTwo", pair, names: FOUND });
  },
  heard: {
    comparing(turn, gesture, answer, { pair }) {
      if (!("window" in answer)) turn.say("These two cannot be compared.", true);
      else turn.set({ comparison: ofTwo(pair, answer) });
      turn.finish();
    },
  },
};

// The comparison that is shown, in the view as it is now: at any zoom its pixels are those of the view. A picture beside the layers has
// pixels of its own, and is compared by them alone.
/** @type {Machine.Kind<"compareView">} */
export const compareView = {
  begin(turn) {
    const { comparison, steps } = turn.state;
    if (comparison?.kind === "before" && !steps.group) {
      return turn.ask({ stage: "comparing" }, { kind: "compareView", steps: comparison.back, colours: COLOURS });
    }
    const names = (comparison?.pair ?? []).filter(({ isOpened }) => !isOpened).map(({ name }) => name);
    return names.length === 2 ? turn.ask({ stage: "comparing" }, { kind: "compareTwoView", names, colours: COLOURS }) : turn.finish();
  },
  heard: {
    comparing(turn, gesture, answer) {
      const { comparison } = turn.state;
      if (!answer.isWhole) turn.say("Not all undone steps could be made again: open the page again.", true);
      else if (comparison && "window" in answer) turn.set({ comparison: inView(comparison, answer) });
      turn.finish();
    },
  },
};

/** @param {Machine.State} state */
const fitNames = (state) => boxNames(shownLayers(state).length ? shownLayers(state) : state.layers);

/** @type {Machine.Kind<"fit">} */
export const fit = {
  begin(turn, { names }) {
    turn.ask({ stage: "boxes" }, { kind: "boxes", names: names ?? fitNames(turn.state) });
  },
  heard: {
    boxes(turn, gesture, { boxes }) {
      const box = joined(boxes.map(boxOf));
      if (box) turn.send({ to: "page", kind: "fit", box });
      turn.finish();
    },
  },
};

// The page has as many steps as a station can keep, and the program a tenth of them where nothing is said.
export const SCRIPT_SAVED = "The script is saved in script.zip with its files. To run it, unpack it and call "
  + `camplot script --depth ${DEPTH} there.`;

// Hands files out.
/** @param {Machine.Turn} turn @param {Omit<Machine.ToPage["download"], "number">} files */
const handOut = (turn, files) => turn.send({ to: "page", kind: "download", number: turn.underWay.number, ...files });

// Hands texts out: one alone as a file, several in a ZIP. They count as saved, with these words, once the browser has them.
/**
 * @param {Machine.Turn<"save">} turn
 * @param {string | undefined} name
 * @param {Machine.Text[]} files
 * @param {string} words
 * @param {Machine.Told[]} entries
 */
function handOutTexts(turn, name, files, words, entries) {
  const { accepted } = turn.state.checks, [first] = files;
  if (name !== undefined && first) {
    turn.work({ stage: "handing", words: `${name} is saved as ${first.name}${words}`, entries });
    return handOut(turn, { files, zip: null });
  }
  const more = accepted.length ? [{ name: "nets.accepted", bytes: new TextEncoder().encode(acceptedText(accepted)) }] : [];
  turn.work({ stage: "handing", entries, words: `${plural(files.length, "layer")}${
    more.length ? ` and ${plural(accepted.length, "accepted finding")}` : ""} saved in board.zip${words}` });
  return handOut(turn, { files: [...files, ...more], zip: "board.zip" });
}

// The browser has the files, or why it has not.
/** @param {Machine.Turn<"save" | "plot">} turn @param {Machine.Handed} answer @param {{ words: string, entries: Machine.Told[] }} at */
function handedOut(turn, { why }, { words, entries }) {
  if (why) turn.say(`Nothing is saved: ${why}`, true);
  else turn.say(words);
  return settle(turn, why ? entries.map((entry) => ({ ...entry, isSave: false })) : entries, { left: null });
}

// The canonical texts of layers, with what their files say of items where that is asked for.
/** @type {Machine.Kind<"save">} */
export const save = {
  begin(turn, { name }) {
    const { state } = turn, layers = name === undefined ? state.layers : state.layers.filter((layer) => layer.name === name);
    if (!layers.length) {
      turn.say(name === undefined ? "No layer is open." : "No layer is chosen.", true);
      return turn.finish();
    }
    // One alone has no folders.
    const paths = savedPaths(state.layers), writes = layers.map((layer) => {
      const path = paths.get(layer.name) ?? layer.name;
      return { layer, name: name === undefined ? path : path.replace(/^.*\//, ""), line: `write ${layer.name} written/${writtenAs(layer)}` };
    });
    return turn.apply({ stage: "lines", isGroup: false, writes }, writes.map(({ line }) => ({ line })));
  },
  heard: {
    lines(turn, gesture, { answers }, { writes }) {
      const isRefused = tellRefused(turn, answers), written = pairs(writes, answers);
      const entries = written.map(([{ line }, { reply }]) => ({ line, reply, isSave: !isRefused }));
      if (isRefused) return settle(turn, entries, { left: null });
      const files = written.flatMap(([{ name, layer }, { bytes }]) => bytes ? [{ name, bytes, layer: layer.name }] : []);
      const lost = losses(turn.state, writes.map(({ layer }) => layer));
      /** @param {string} name */
      const isGerber = (name) => layerOf(turn.state, name)?.kind === "gerber";
      if (gesture.isWhole ?? lost.some(({ name }) => isGerber(name))) {
        const layers = files.filter(({ layer }) => isGerber(layer)).map(({ layer, bytes }) => ({ name: layer, canonical: bytes }));
        return turn.ask({ stage: "attributes", entries, files }, { ...carriedLines(turn.state), layers });
      }
      return handOutTexts(turn, gesture.name, files, lost.length ? ", without the attributes of items." : ".", entries);
    },
    // Where a text with attributes could not be made, the layer's own text, and why.
    attributes(turn, { name }, { files: made }, { files, entries }) {
      const found = new Map(made.map((file) => [file.name, file]));
      const whys = made.filter(({ bytes }) => !bytes).map((file) => `${file.name}: ${file.why}`);
      const texts = files.map((file) => ({ ...file, bytes: found.get(file.layer)?.bytes ?? file.bytes }));
      // (what was added makes a text longer)
      const isMore = pairs(texts, files).some(([text, file]) => text.bytes.length !== file.bytes.length);
      const words = whys.length ? `; these without attributes, which could not be joined: ${whys.join("; ")}.`
        : isMore ? ", with the attributes of items." : ".";
      handOutTexts(turn, name, texts, words, entries);
    },
    handing: (turn, gesture, answer, at) => handedOut(turn, answer, at),
  },
};

// The window around a box in nm at a pitch, as a line.
/** @param {Board.Box} box @param {number} pitch */
function windowAround(box, pitch) {
  const width = Math.ceil((box.right - box.left) / pitch) + 2, height = Math.ceil((box.high - box.low) / pitch) + 2;
  return { line: `window ${Math.floor(box.left - pitch)} ${Math.floor(box.low - pitch)} ${pitch} ${width} ${height}`,
    isAllowed: Math.max(width, height) <= 32768 };
}

// Plots of layers at a pitch, as PNG or PBM files.
/** @type {Machine.Kind<"plot">} */
export const plot = {
  begin(turn) {
    turn.ask({ stage: "boxes" }, { kind: "boxes", names: fitNames(turn.state) });
  },
  heard: {
    boxes: (turn, { names, pitch }, { boxes }) => plotLines(turn, names.filter((name) => layerOf(turn.state, name)), pitch, boxes),
    lines(turn, { pitch, form }, { answers }, { lines, plotted }) {
      const isRefused = tellRefused(turn, answers), entries = pairs(lines, answers).map(([line, { reply }]) => ({ line, reply }));
      if (isRefused) return settle(turn, entries, { left: null });
      const files = pairs(plotted, answers.slice(1)).flatMap(([name, { bytes }]) => bytes ? [{ name: `${name}.${form}`, bytes }] : []);
      turn.work({ stage: "handing", words: `${plural(files.length, "plot")} saved.`, entries });
      return handOut(turn, { files, zip: files.length > 1 ? "plots.zip" : null, form, pitch });
    },
    handing: (turn, gesture, answer, at) => handedOut(turn, answer, at),
  },
};

// The script with its files: with all that was done before, and nothing of what comes behind.
/** @type {Machine.Kind<"script">} */
export const script = {
  begin(turn) {
    turn.work({ stage: "handing" });
    turn.send({ to: "page", kind: "script", number: turn.underWay.number });
  },
  heard: {
    handing(turn, gesture, { why }) {
      if (why) turn.say(`Nothing is saved: ${why}`, true);
      else turn.say(SCRIPT_SAVED);
      turn.finish();
    },
  },
};

/** @param {Machine.Turn<"plot">} turn @param {string[]} names @param {number} pitch @param {string[]} boxes */
function plotLines(turn, names, pitch, boxes) {
  const box = joined(boxes.map(boxOf)), window = box && windowAround(box, pitch);
  if (!names.length || !window || !window.isAllowed) {
    turn.say(!names.length || !box ? "There is nothing to plot."
      : "That is more than 32,768 pixels along a side: use fewer dots an inch.", true);
    return turn.finish();
  }
  const paths = plotPaths(turn.state, names);
  const lines = [window.line, ...pairs(names, paths).map(([name, path]) => `plot ${name} ${path}`)];
  return turn.apply({ stage: "lines", isGroup: false, plotted: names, lines }, lines.map((line) => ({ line })));
}
