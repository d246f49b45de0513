// What the page knows: one plain object, of which `step` makes the next one. Nothing of it is changed in place.

import { Steps } from "./steps.js";
import { named } from "./named.js";

// How many steps the station can undo.
export const DEPTH = 1000;

// The look of a layer that the page was told nothing of.
export const PLAIN = { colour: "#9fb06a", opacity: 0.85, isShown: true, height: 99 };

/** @type {() => Machine.State} */
export const firstState = () => ({
  // The document: its layers from the bottom up, { name, kind, label, colour, opacity, isShown, height, file, items, entries };
  // every line with its reply, { line, reply }, of a load with the path, the number of its file and the layer's look; what
  // can be undone; and where in the steps each layer was saved.
  layers: [],
  told: [],
  steps: new Steps(DEPTH),
  saved: named(),
  unsaved: 0,
  hasWindow: false,
  // What is picked, { id, name, place, words, box }, in the order of picking: `id` is the pick's own for as long as it lasts.
  // Then the last click, { x, y, id }, and what was copied, in the words of its items with their apertures' and tools' definitions.
  picked: [],
  click: null,
  copied: [],
  // The layer that insertions go to, and the number of the aperture or tool that they use; what the station told of the
  // entries and attributes of layers; and the part of the active layer's items that is listed.
  active: null,
  entry: null,
  entries: named(),
  attributes: named(),
  list: { isOpen: false, from: 0, words: [], name: null },
  // The tool, the points of what is drawn by it, { points, centre }, the settings of new items, and the unit of lengths.
  tool: "pick",
  making: null,
  grid: 10000,
  unit: "mm",
  polarity: "dark",
  turn: "r0",
  direction: "ccw",
  // Whether points snap to items, and the point that lengths are shown from, { x, y }; null for that of the board.
  hasSnaps: true,
  origin: null,
  // The menu of what lies at a point, { x, y, items, isMore, told }, of the script as it was then; how far two picks are from
  // one another by their pixels, { picked, found }; and the tables of tools and apertures: whether they are open, the script
  // of which they are, what they found by the layers' names, and the items of what is lit, { name, number, items }.
  menu: null,
  gap: null,
  tables: { isDrill: false, isApertures: false, told: null, found: named(), lit: null },
  // The one item that is picked in words, { id, told, unit, words }; all items that share something and are lit, { of, told,
  // items, entries }; and the job file that came along, { name, bytes }.
  inWords: null,
  lit: null,
  job: null,
  // The side of the board as it will be made: whether it is shown in place of the layers, and its colours.
  made: { isShown: false, mask: "green", finish: "tin" },
  // Whether layers are shown by the edges of what they paint.
  isOutlined: false,
  // What is compared, and shown in place of the layers; null where nothing is.
  comparison: null,
  // The files that were given, by number, { name, bytes }; the number of each path of the script; the pictures beside the
  // layers; the files that were refused; and what became of each opening.
  files: {},
  paths: named(),
  opened: [],
  windows: [],
  refused: [],
  openings: {},
  // What saving a layer of a file drops of its attributes, in words, by the number of the file.
  dropped: {},
  // What is asked, the first one of the person, the others behind it.
  questions: [],
  // The gestures that wait, the one that is under way, and the station: `why` it stopped, or null.
  queue: [],
  work: null,
  station: { isOpen: false, why: null },
  // What the browser keeps: how many records, what it was not given yet, whether it has to be given all anew, and why it
  // does not keep all; lines that it kept and that the station now refuses; and what else went wrong.
  kept: { count: 0, records: [], files: [], isWaiting: false, isAnew: false, why: null, isLost: false, isOpen: false },
  spoiled: [],
  faults: [],
  // The layers that were shown before one was shown alone, and whether the page is about to begin anew.
  shownBefore: null,
  isLeaving: false,
  // What is known of the nets, where they are found after each edit (nets_panel.js): `marks` has what each step joined or
  // cut, by the step's way.
  nets: { isOn: false, pitch: 25400, why: null, marks: new Map(), about: null, lit: null, near: null, change: null,
    findings: null, isBefore: false, led: null, netlist: null },
  // What the check of nets and rules is asked: the limits of the rules, [name, nm], with what their file is called; the findings that
  // were accepted, and who accepted the last one.
  checks: { name: null, limits: [], accepted: [], by: "" },
  // The last word to the person.
  said: { text: "", isFault: false },
  // Numbers that were not given yet.
  next: 1,
});

/** @param {Pick<Machine.State, "layers">} state @param {string | null} name */
export const layerOf = ({ layers }, name) => layers.find((layer) => layer.name === name) ?? null;

// What becomes of the opening of a number; undefined where there is none.
/** @param {Pick<Machine.State, "openings">} state @param {number | undefined} id */
export const openingOf = ({ openings }, id) => id === undefined ? undefined : openings[id];

// The bytes of a file by its number; undefined where there is none.
/** @param {Machine.State["files"]} files @param {string | undefined} id */
export const bytesOf = (files, id) => id === undefined ? undefined : files[id]?.bytes;

/** @type {(state: Machine.State) => boolean} whether the side of the board is shown as it will be made, and not the layers */
export const isMadeShown = ({ made, comparison }) => made.isShown && comparison === null;

/** @param {Pick<Machine.State, "layers">} state */
export const shownLayers = ({ layers }) => layers.filter((layer) => layer.isShown);

// What lies on the board, from the bottom up.
/** @type {(state: Machine.State) => readonly Machine.Shown[]} */
export const drawnLayers = (state) => state.comparison?.layers
  ?? [...shownLayers(state), ...state.opened.filter((picture) => picture.isShown)];

// Whether many files are on their way into the station, so that nothing is drawn yet.
/** @param {Machine.State} state */
export const isOpening = ({ work, queue }) => work !== null && ["load", "replay"].includes(work.gesture.kind) && work.stage !== "asking"
  || queue.some(({ kind }) => kind === "load" || kind === "replay");

// Whether nothing is under way, nothing waits, and no refused file is still tried.
/** @param {Machine.State} state */
export const isIdle = ({ work, queue, station, openings }) => work === null && (queue.length === 0 || !station.isOpen)
  && !Object.values(openings).some(({ trying }) => trying > 0);

// Whether lines or files wait for a station that stopped: they are kept nowhere, and are in this page alone.
/** @param {Machine.State} state */
export const waitsForStation = ({ queue, station }) => station.why !== null
  && queue.some((gesture) => ["edit", "lines"].includes(gesture.kind) || gesture.kind === "keep" && (gesture.files ?? []).length > 0);

// Whether nothing was done yet.
/** @param {Machine.State} state */
export const isBlank = (state) => state.work === null
  && [state.told, state.queue, state.refused, state.opened, state.questions].every(({ length }) => length === 0);

// The script as a file: what was accepted, and what was refused as comments.
/** @param {Machine.State} state */
export const scriptText = ({ told }) =>
  told.map(({ line, reply }) => reply.startsWith("refused") ? `# ${reply}: ${line}\n` : `${line}\n`).join("");

// The bytes of each file of the script, by its path.
/** @param {Machine.State} state */
export const sessionOf = ({ paths, files }) =>
  new Map(Object.entries(paths).map(([path, id]) => [path, files[id]?.bytes ?? new Uint8Array()]));
