// Files that are opened: which layer each is, and what waits to be loaded.

import { isArchive } from "../zip/index.js";
import { isPbm } from "../bytes/index.js";
import { isJob, otherWords } from "./other_files.js";
import { plural, recogniseFiles } from "../board/index.js";
import { openingOf } from "./state.js";

// What becomes of an opening.
/** @type {Machine.Opening} */
export const BLANK = { opened: [], refused: [], others: [], faults: [], pictures: 0, converted: 0, trying: 0, wasEmpty: null, isAllowed: false,
  isDone: false, leftClosed: 0, job: null };

/** @param {string[]} names */
const listed = (names) => names.slice(0, 5).join(", ") + (names.length > 5 ? ", .." : "");

const EXTRA = ["#f08cd0", "#8ce0a0", "#e0c08c", "#8cb4f0"];

// The look of a recognised layer under the name that it got, next to those that are open: of two that are called the same, one is told
// apart by its file.
/** @param {Machine.Recognised} layer @param {string} name @param {readonly Machine.Look[]} others @returns {Machine.Look} */
export function lookOf({ wanted, label, colour, height, isShown, fileName, origin, toldBy }, name, others) {
  const isCalledSo = others.some((other) => other.label === label);
  return { label: isCalledSo ? `${label} (${fileName})` : label, height, isShown, opacity: 0.85,
    colour: name !== wanted ? EXTRA[others.length % EXTRA.length] ?? colour : colour, file: fileName, origin, shows: wanted, toldBy };
}

/** @param {import("../board/index.js").Layer} layer @returns {Machine.Recognised} */
const recognised = ({ file, kind, layerFunction, toldBy }) => ({ kind, wanted: layerFunction.name, label: layerFunction.label,
  colour: layerFunction.colour, height: layerFunction.height, isShown: layerFunction.isShown, fileName: file.name,
  origin: typeof file.path === "string" ? file.path : file.name, toldBy });

// Takes in files, [{ name, bytes }]; `faults` are words about those that could not be read. They are kept at once, and
// loaded one after another when their turn comes. Answers the number of the opening.
/** @param {Machine.Turn} turn @param {{ files: Machine.File[], areNamed?: boolean, faults?: string[] }} given */
export function open(turn, { files, areNamed = true, faults = [] }) {
  const opening = turn.number(), archives = files.filter(({ bytes }) => isArchive(bytes)), plain = files.filter(({ bytes }) => !isArchive(bytes));
  const pictures = plain.filter(({ bytes }) => isPbm(bytes)), foreign = plain.filter((file) => otherWords(file));
  const { layers, others } = recogniseFiles(plain.filter((file) => !isPbm(file.bytes) && !foreign.includes(file)), areNamed);
  const given = { ...turn.state.files };
  /** @type {string[]} */
  const made = [];
  /** @param {Pick<Machine.File, "name" | "bytes">} file */
  const take = (file) => {
    const id = `given ${turn.number()}`;
    given[id] = { name: file.name, bytes: file.bytes };
    made.push(id);
    return id;
  };
  const loads = layers.map((layer) => /** @type {Machine.Gesture} */ ({ kind: "load", opening, file: take(layer.file), layer: recognised(layer) }));
  const shown = pictures.map((file) => /** @type {Machine.Gesture} */
    ({ kind: "picture", opening, file: take(file), label: file.name, of: null, window: null }));
  const unread = archives.map(({ name }) => `${name} is a ZIP file, which is not read here: drop it on the page.`);
  // (one that comes alone, to no board, is told what it is)
  const job = layers.length || turn.state.layers.length ? foreign.filter(isJob).pop() ?? null : null;
  const told = foreign.filter((file) => job === null || !isJob(file)).flatMap((file) => otherWords(file) ?? []);
  const record = { ...BLANK, others: others.map(({ name }) => name), faults: [...faults, ...unread, ...told], job: job?.name ?? null };
  if (job) turn.set({ job: { name: job.name, bytes: job.bytes } });
  turn.set({ files: given, openings: { ...turn.state.openings, [opening]: record } });
  if (made.length) turn.last({ kind: "keep", files: made });
  turn.last(...loads, ...shown, { kind: "opened", opening });
  return opening;
}

/** @param {Machine.Turn} turn @param {number | undefined} id @param {Partial<Machine.Opening>} changes */
export function change(turn, id, changes) {
  const before = openingOf(turn.state, id);
  if (before && id !== undefined) turn.set({ openings: { ...turn.state.openings, [id]: { ...before, ...changes } } });
}

// Says what became of an opening when nothing of it is open any more.
/** @param {Machine.Turn} turn @param {number | undefined} id */
export function conclude(turn, id) {
  const { openings, queue, questions } = turn.state, opening = openingOf(turn.state, id);
  if (id === undefined || !opening?.isDone || opening.trying || queue.some((gesture) => gesture.opening === id)
    || questions.some((question) => question.opening === id)) return;
  const { opened, refused, others, faults, pictures, converted, leftClosed, job } = opening;
  const isNothing = !pictures && !refused.length && !faults.length && !leftClosed && !job;
  const parts = [
    opened.length || isNothing ? `${plural(opened.length, "layer")} opened.` : "",
    converted ? `${plural(converted, "file")} converted.` : "",
    pictures ? `${plural(pictures, "picture")} opened.` : "",
    leftClosed ? `${plural(leftClosed, "file")} left closed.` : "",
    others.length ? `${plural(others.length, "file")} left out: ${listed(others)}.` : "",
    job ? `${job} is kept for what it says about this board.` : "",
    refused.length ? `${plural(refused.length, "file")} refused, see the left side.` : "", ...faults,
  ];
  turn.say(parts.filter((part) => part).join(" "), refused.length > 0 || faults.length > 0);
  turn.send({ to: "page", kind: "opened", opening: id, result: { opened, refused, others } });
  const rest = { ...openings };
  delete rest[id];
  turn.set({ openings: rest });
}
