// Names that nothing has yet: chosen when the turn of what they are for comes.

import { wordsOf } from "./steps.js";
import { layerOf } from "./state.js";

/** @param {(name: string) => boolean} isTaken @param {(number: number) => string} make */
const unique = (isTaken, make) => {
  for (let number = 1; ; number++) if (!isTaken(make(number))) return make(number);
};

// A path that a script can name.
/** @param {Machine.State} state @param {string} name */
export function pathFor({ paths }, name) {
  const plain = name.replace(/[^A-Za-z0-9_.-]+/g, "_").slice(-120) || "file";
  return unique((path) => paths[path] !== undefined, (number) => number === 1 ? `files/${plain}` : `files/${number}-${plain}`);
}

/** @param {Machine.State} state @param {string} wanted */
export const nameFor = (state, wanted) =>
  unique((name) => layerOf(state, name) !== null, (number) => number === 1 ? wanted : `${wanted}-${number}`);

// A path for a plot of a layer, so that no other plot of the script is written over it.
/** @param {Machine.State} state @param {string[]} names */
export function plotPaths({ told }, names) {
  const taken = new Set(told.map(({ line }) => wordsOf(line)).filter(([word]) => word === "plot").map((words) => words[2]));
  return names.map((name) => {
    const path = unique((other) => taken.has(other),
      (number) => number === 1 ? `plots/${name}.pbm` : `plots/${name}-${number}.pbm`);
    taken.add(path);
    return path;
  });
}
