// How the page begins: where it was left, by what the browser kept, or else with the board that it holds.

import { BLANK, change, open } from "./opening.js";
import { PLAIN, openingOf } from "./state.js";
import { askAbout, askWhenTried } from "./asking.js";
import { firstWord, wordsOf } from "./steps.js";
import { named } from "./named.js";

/** @param {string} id */
const numberOf = (id) => Number(/(\d+)$/.exec(id)?.[1] ?? 0);

/** @param {Machine.Looks | null} looks @returns {Partial<Machine.State>} */
function looksOf(looks) {
  if (!looks) return {};
  const { grid, unit, active, layers = [], polarity, turn, direction, job, made, checks, isOutlined } = looks;
  const given = Object.entries({ grid, unit, active, polarity, turn, direction, job, made, checks, isOutlined }).filter(([, value]) => value ?? false);
  return { ...Object.fromEntries(given), layers: layers.map((layer) => ({ items: 0, entries: 0, ...PLAIN, ...layer })) };
}

// The document as it was kept: its lines are played again, and what waited waits on.
/** @param {Machine.Turn} turn @param {Pick<Machine.Journal, "records" | "files" | "looks" | "waiting">} kept */
function restore(turn, { records, files, looks, waiting }) {
  const told = records.flat(), loads = told.filter(({ path }) => path);
  const names = new Set(told.filter(({ line }) => firstWord(line) === "load").map(({ line }) => wordsOf(line)[1]));
  const given = Object.fromEntries(files.map(([id, bytes]) => [id, { name: id, bytes }]));
  const parts = looksOf(looks);
  const next = 1 + Math.max(0, turn.state.next, waiting?.next ?? 0, ...files.map(([id]) => numberOf(id)));
  turn.set({ ...parts, layers: (parts.layers ?? []).filter(({ name }) => names.has(name)), told, files: given, next,
    paths: named(Object.fromEntries(loads.filter(({ reply }) => reply.startsWith("ok")).map(({ path, file }) => [path, file ?? path]))),
    refused: (waiting?.refused ?? []).filter(({ file }) => given[file]).map(({ isAsked, ...entry }) => ({ ...entry, isPending: isAsked === true })) });
  if (told.length) turn.last({ kind: "replay", isFitted: !looks?.view });
  if (looks?.view) turn.send({ to: "page", kind: "view", view: looks.view });
  if (looks?.look) turn.send({ to: "page", kind: "look", look: looks.look });
  goOnWith(turn, waiting ?? {}, given);
}

// What was on its way when the page was left: files, pictures, and questions about refused files.
/** @param {Machine.Turn} turn @param {Partial<Machine.Waiting>} waiting @param {Machine.State["files"]} given */
function goOnWith(turn, { gestures = [], refused = [], pictures = [] }, given) {
  /** @param {{ file?: string | null }} what */
  const isThere = ({ file }) => file === undefined || file === null || given[file];
  const shown = pictures.filter(isThere).map((picture) => /** @type {Machine.Gesture} */ ({ kind: "picture", ...picture }));
  // (what ends an opening is of no use once all of it is open)
  /** @param {Machine.Gesture} gesture */
  const isOpen = ({ kind, opening }) => kind !== "opened" || gestures.some((other) => other.kind !== "opened" && other.opening === opening)
    || refused.some((entry) => entry.opening === opening);
  const waits = gestures.filter((gesture) => isThere(gesture) && isOpen(gesture));
  turn.last(...shown, ...waits);
  // (an opening of which questions alone are left begins again when one of them is answered)
  const open = turn.state.refused.filter(({ isTried, isPending }) => !isTried || isPending);
  for (const id of new Set([...waits, ...open].map(({ opening }) => opening))) {
    if (id === undefined) continue;
    /** @param {{ opening?: number | undefined }} what */
    const isOf = ({ opening }) => opening === id;
    const its = turn.state.refused.filter(isOf).map((entry) => ({ id: entry.id, name: entry.layer.fileName, reply: entry.reply }));
    turn.set({ openings: { ...turn.state.openings, [id]: { ...BLANK, refused: its, isDone: !waits.some(isOf) } } });
  }
  askAgain(turn, refused);
  for (const entry of turn.state.refused) {
    if (!entry.isTried && !refused.find(({ id }) => id === entry.id)?.isAsked) {
      change(turn, entry.opening, { trying: (openingOf(turn.state, entry.opening)?.trying ?? 0) + 1 });
      turn.send({ to: "page", kind: "try", refused: entry.id });
    }
  }
  // Those that were still to be asked about are so together with what is tried once more.
  for (const opening of new Set(turn.state.refused.filter(({ isPending }) => isPending).map((entry) => entry.opening))) {
    askWhenTried(turn, opening);
  }
}

// Asks what was asked, about the same files at once.
/** @param {Machine.Turn} turn @param {Machine.Waiting["refused"]} refused */
function askAgain(turn, refused) {
  /** @type {Map<number, Machine.Refused[]>} */
  const groups = new Map();
  for (const entry of turn.state.refused) {
    const isAsked = refused.find(({ id }) => id === entry.id)?.isAsked;
    if (typeof isAsked === "number") groups.set(isAsked, [...groups.get(isAsked) ?? [], entry]);
  }
  for (const entries of groups.values()) askAbout(turn, entries, entries[0]?.opening);
}

// The board that a tool put into the page, with the lines that came with it.
/** @param {Machine.Turn} turn @param {Machine.Contents} contents */
function openContents(turn, { files, lines }) {
  if (files.length) open(turn, { files });
  const given = { ...turn.state.files };
  /** @type {string[]} */
  const ids = [];
  /** @type {Machine.Gesture[]} */
  const gestures = [];
  for (const { line, bytes } of lines) {
    if (!bytes) {
      gestures.push({ kind: "lines", lines: [line], isAllowed: true, isGiven: true });
      continue;
    }
    const [, name = "", kind, path = ""] = wordsOf(line), id = `given ${turn.number()}`;
    given[id] = { name: path, bytes };
    ids.push(id);
    gestures.push({ kind: "load", file: id, layer: { kind: kind === "drill" ? "drill" : "gerber" },
      given: { name, path: path.replace(/^.*\//, "") }, isGiven: true });
  }
  turn.set({ files: given });
  if (gestures.length) turn.last(...gestures);
  // They are kept together with the files, before the first of them is loaded.
  const keeps = turn.state.queue.find(({ kind }) => kind === "keep");
  /** @type {Machine.Gesture} */
  const all = { ...keeps, kind: "keep", files: [...keeps?.files ?? [], ...ids] };
  turn.set({ queue: [...ids.length || keeps ? [all] : [], ...turn.state.queue.filter((gesture) => gesture !== keeps)] });
}

/** @param {Machine.Turn} turn @param {Machine.Events["begin"]} event */
export function begin(turn, { kept, contents }) {
  const { records, files, looks, waiting, why, isOpen } = kept;
  turn.set({ kept: { ...turn.state.kept, isOpen, why, isLost: false, count: records.length } });
  const waits = waiting ? waiting.gestures.length + waiting.refused.length + waiting.pictures.length : 0;
  const isAny = records.length > 0 || waits > 0;
  if (isAny) restore(turn, { records, files, looks, waiting });
  else if (contents) openContents(turn, contents);
  if (contents?.window) turn.set({ windows: [...turn.state.windows, contents.window] });
  for (const { name, layer, window, bytes } of contents?.pictures ?? []) {
    const id = `inside ${turn.number()}`;
    turn.set({ files: { ...turn.state.files, [id]: { name, bytes } } });
    turn.last({ kind: "picture", file: id, label: name, of: layer, window, isInside: true });
  }
  turn.say(why ?? "", Boolean(why));
}
