// The page: what begins, in which order, and what the machine asks of it.

import { Boards } from "./boards.js";
import { BoardsPanel } from "./boards_panel.js";
import { DEPTH, isOpening, knowRefusals, scriptText, sessionOf } from "../machine/index.js";
import { compareChosen, listenToPictures } from "./pictures_panel.js";
import { contentsOf, unpacked } from "./contents.js";
import { faultWords } from "./store.js";
import { browserPlatform } from "./platform.js";
import { plural, snapped, titleOf } from "../board/index.js";
import { askForScript, handOut, listenToLeaving, saveScript, saved } from "./saving.js";
import { listenToAble, listenToButtons, listenToKeys } from "./actions.js";
import { listenToBoardView } from "./board_view.js";
import { listenToLooks, looksNow, setLook } from "./looks.js";
import { listenToRefused, tryRefused } from "./refused_files.js";
import { ComparingView } from "./comparing_view.js";
import { Face } from "./face.js";
import { Going } from "./going.js";
import { HeldMove } from "./held_move.js";
import { giveBoard } from "./giving_board.js";
import { giveSvg, giveView } from "./giving.js";
import { Link } from "./station.js";
import { Marks } from "./marks.js";
import { Menu } from "./menu.js";
import { NetsPanel } from "./nets_panel.js";
import { Palette } from "./palette.js";
import { Panels } from "./panels.js";
import { Pointer, pileOf } from "./pointer.js";
import { Runner } from "./runner.js";
import { StartPanel } from "./start_panel.js";
import { TablesPanel } from "./tables_panel.js";
import { View, looksOf } from "./view.js";
import { byId, tell, textOf } from "./dom.js";
import { listenToFiles, unpackedApart } from "./files.js";
import { listenToGroups } from "./refused_groups.js";
import { listenToHistory } from "./history_panel.js";
import { listenToItemList } from "./item_list.js";
import { listenToItems } from "./item_panel.js";
import { listenToKept } from "./kept_panel.js";
import { listenToLayerSettings } from "./layer_settings.js";
import { listenToLayers } from "./layer_panel.js";
import { listenToQuestions } from "./questions.js";
import { listenToScript } from "./script_panel.js";
import { nameActions } from "./commands.js";
import { printSheet } from "./printing.js";
import { readPbm } from "../bytes/index.js";
import { withUnpacked } from "../zip/index.js";

// Tells the machine that the browser has what is handed out, or why it has not.
/** @param {number} number @param {() => unknown} run */
const handed = (number, run) => machine.await(Promise.resolve().then(run).then(() => null, faultWords)
  .then((why) => machine.send({ kind: "answer", number, answer: { why } })));

// What the machine asks of the page.
/** @type {Page.Tasks} */
const asked = {
  fit: ({ box, room }) => {
    view.fit(box, room);
    going.opened();
    keepLooks();
  },
  go: ({ place }) => going.to(place),
  seek: (found) => {
    if (going.seek(found)) keepLooks();
  },
  "copy link": () => going.copyLink(),
  "give view": ({ number }) => handed(number, () => giveView(view)),
  "give svg": ({ number, ...given }) => handed(number, () => giveSvg(view, given)),
  "give board": ({ number, ...given }) => handed(number, () => machine.link ? giveBoard(view, machine.link, given) : Promise.reject(new Error("the station stopped."))),
  "give print": ({ number, ...given }) => handed(number, () => printSheet(view, given)),
  view: ({ view: was }) => view.show(was),
  look: ({ look }) => setLook(look, view),
  try: ({ refused }) => tryRefused(machine, refused),
  download: ({ number, ...files }) => handed(number, () => handOut(files)),
  script: ({ number }) => handed(number, () => saveScript(machine)),
  copy: ({ text }) => navigator.clipboard?.writeText(text).catch(() => {}),
  "show picked": () => machine.send({ kind: "showPicked" }),
  "put picture": ({ name, file, window }) => {
    const found = machine.state.files[file];
    if (found) machine.link?.send({ number: 0, kind: "picture", name, picture: readPbm(found.bytes), line: window });
  },
  start: () => machine.await(openStation().then(() => machine.send({ kind: "restarted" }), stopped)),
  anew: () => boards.forgetAll().finally(() => location.reload()),
  "board closed": () => boards.left(),
};

/** @param {unknown} fault */
const stopped = (fault) => machine.send({ kind: "stopped", why: faultWords(fault) });

const machine = new Runner(asked);
const view = new View(byId("board"), machine, (shown) => machine.link?.send({ number: 0, kind: "view", view: shown }));
const marks = new Marks(byId("marks"), view, machine);
const going = new Going(machine, view);
/** @type {Boards} */
const boards = new Boards(machine, browserPlatform(), {
  openStation, keepLooks: () => keepLooks(), contents: () => contents, changed: () => {
    panel.draw();
    startPanel.draw();
  },
  seen: () => view.seen,
  show: (seen) => {
    marks.forget();
    for (const name of [...view.pictures.keys()]) view.forget(name);
    if (!seen) return;
    view.number = 0;
    view.isWhole = true;
    view.show(seen);
  },
});
const panel = new BoardsPanel(machine, boards);
const startPanel = new StartPanel(machine, boards);
const face = new Face(machine, view, (picture) => keepLooks(picture));
const nets = new NetsPanel(machine, view, stationModule);
view.afterDraw = () => {
  nets.paint();
  going.paint();
  marks.paint();
  face.painted();
};
const pointer = new Pointer(machine, view, marks);
const held = new HeldMove(machine, marks);
pointer.onNet = (/** @type {Board.Point} */ place) => nets.lightAt(place);
new Menu(machine, view, marks.signs);
new TablesPanel(machine);
new ComparingView(machine, view);

function resize() {
  const box = byId("stage").getBoundingClientRect();
  const density = window.devicePixelRatio || 1;
  const width = Math.max(1, Math.round(box.width * density)), height = Math.max(1, Math.round(box.height * density));
  view.resize(width, height, density);
  // At once, since a canvas is black when its sides were set.
  view.paintNow();
}

/** @param {Page.News} message */
function heard(message) {
  if ("answer" in message) {
    // Something changed is still to be drawn.
    if ("answers" in message.answer && message.answer.answers.some(({ code }) => code === 0)) view.undrawn();
    machine.send({ kind: "answer", ...message });
  } else if (message.kind === "picture") view.put(message);
  else if (message.kind === "drawn") view.drawn(message);
  else if (message.kind === "drawing") showDrawing(message);
  else machine.send({ kind: "say", text: message.why ?? `${message.name} cannot be drawn: refused ${message.code}`, isFault: true });
  byId("drawing").hidden = view.isWhole;
  if (view.isWhole) showDrawing(null);
}

// How far a drawing is that takes long; null where none does.
/** @param {Page.Progress | null} far */
function showDrawing(far) {
  byId("drawing-words").textContent = far ? `drawing ${far.drawn + 1} of ${plural(far.count, "layer")}${
    far.part ? `, ${Math.floor(100 * far.part)} %` : ""} ..` : "drawing ..";
  byId("drawing-stop").hidden = far === null;
}

/** @type {Promise<Uint8Array> | null} */
let module = null;

// The board that a tool put into the page.
/** @type {Machine.Contents | null} */
let contents = null;

// The station's module, unpacked once; again where that failed.
function stationModule() {
  module ??= unpacked(textOf("module")).catch((fault) => {
    module = null;
    throw fault;
  });
  return module;
}

// A station in a new worker; what was before is over.
async function openStation() {
  const before = machine.link;
  machine.link = null;
  before?.end("opened again");
  /** @type {Link} */
  const link = new Link(textOf("worker"), (message) => machine.link === link && heard(message), (why) => {
    if (machine.link === link) machine.send({ kind: "stopped", why });
    else boards.happened((board) => board.link === link, { kind: "stopped", why });
  });
  machine.link = link;
  await link.call("open", { module: await stationModule(), depth: DEPTH });
  view.number = 0;
  view.renew();
}

// What a browser is told that cannot run the module.
const TOO_OLD = "This browser cannot run the page: it lacks WebAssembly with vectors, or cannot unpack the module. Use Chromium, "
  + "Chrome or Edge from version 91 on, Firefox from version 113 on, or Safari from version 16.4 on; or the program camplot, "
  + "which does the same from a script.";

// A module that sets a vector and fills a part of its memory, and nothing else.
const TRIAL = new Uint8Array([0, 97, 115, 109, 1, 0, 0, 0, 1, 4, 1, 96, 0, 0, 3, 2, 1, 0, 5, 3, 1, 0, 1, 10, 32, 1, 30, 0,
  253, 12, ...new Array(16).fill(0), 26, 65, 0, 65, 0, 65, 0, 252, 11, 0, 11]);
const canRun = () => typeof DecompressionStream === "function" && WebAssembly.validate(TRIAL);

function keepLooks(picture = machine.kept?.looks?.face ?? null) {
  if (!machine.kept) return;
  boards.board.title = titleOf(machine.state);
  const looks = { ...looksNow(machine.state, view), face: machine.state.layers.length ? picture : null };
  machine.kept.keepLooks(looks).then(() => machine.settle());
}

function listen() {
  listenToLooks(machine, view);
  listenToLayers(machine);
  listenToLayerSettings(machine, view);
  listenToBoardView(machine, view);
  listenToHistory(machine, view);
  listenToPictures(machine, view);
  listenToItemList(machine);
  listenToItems(machine);
  listenToRefused(machine);
  listenToGroups(machine);
  listenToFiles(machine, boards, (files) => nets.take(files));
  listenToScript(machine, view);
  listenToQuestions(machine);
  listenToKept(machine, () => askForScript(machine));
  byId("drawing-stop").onclick = () => machine.link?.send({ number: 0, kind: "halt" });
  listenToLeaving(machine, boards);
  machine.panel(({ said }) => [said], ({ said: { text, isFault } }) => tell(text, isFault));
  machine.panel((state) => [looksOf(state.layers), state.opened, state.comparison, state.station, isOpening(state)], () => view.change());
  machine.draw();
}

// What is kept of the looks is written when it changes, and when the page is hidden.
function listenToChanges() {
  machine.panel(({ layers, grid, unit, active, polarity, turn, direction, job, made, checks, isOutlined }) =>
    [layers, grid, unit, active, polarity, turn, direction, job, made, checks, isOutlined],
    () => keepLooks());
  document.addEventListener("visibilitychange", () => keepLooks());
  window.addEventListener("unhandledrejection", ({ reason }) => machine.send({ kind: "fault", why: faultWords(reason) }));
  window.addEventListener("error", ({ message }) => machine.send({ kind: "fault", why: message || "an error" }));
}

async function start() {
  const panels = new Panels(), palette = new Palette(machine);
  const page = { machine, view, marks, pointer, panels, going, boards, held, palette, keepLooks: () => keepLooks() };
  nameActions(page);
  panel.nameAction();
  listenToButtons();
  listenToAble(machine);
  held.listen();
  listenToKeys();
  panels.listen(machine);
  if (!canRun()) return tell(TOO_OLD, true);
  knowRefusals(JSON.parse(textOf("refusals")));
  listen();
  // Before this a key in a field would have sent its form, and another page come.
  document.body.inert = false;
  new ResizeObserver(resize).observe(byId("stage"));
  resize();
  contents = await contentsOf(textOf("contents").trim());
  if (contents?.title) document.title = byId("title").textContent = contents.title;
  const words = await boards.open(contents?.id ?? "", contents !== null), { board } = boards;
  Object.assign(machine, { kept: board.kept });
  machine.send({ kind: "begin", kept: await board.kept.read(), contents: board.hasContents ? contents : null });
  boards.tellLost();
  listenToChanges();
  try {
    await openStation();
    machine.send({ kind: "started" });
  } catch (fault) {
    stopped(fault);
  }
  await machine.begun();
  boards.begun();
  if (words) machine.send({ kind: "say", text: words });
  going.listen();
  document.body.dataset.ready = "yes";
}

// For tests and for those who look with a browser's own tools.
const hooks = {
  view, marks, pointer, saved, snapped, machine, nets, going, boards,
  get state() { return machine.state; },
  get steps() { return machine.state.steps; },
  get told() { return machine.state.told; },
  get session() { return sessionOf(machine.state); },
  idle: () => machine.idle(),
  scriptText: () => scriptText(machine.state),
  run: (/** @type {string[]} */ lines) => machine.gesture({ kind: "lines", lines, window: view.window() }),
  pickAt: (/** @type {number} */ x, /** @type {number} */ y, /** @type {number} */ reach, isAdded = false) =>
    machine.gesture({ kind: "pickAt", x, y, reach, isAdded, pile: pileOf(machine.state, view.isMirrored) }),
  pickIn: (/** @type {Board.Box} */ box, isAdded = false) => machine.gesture({ kind: "pickIn", box, isAdded, pile: pileOf(machine.state, view.isMirrored) }),
  pick: (/** @type {Machine.Place[]} */ places, isAdded = false) => machine.gesture({ kind: "picks", places, isAdded }),
  pickPlace: (/** @type {string} */ name, /** @type {number} */ place) => machine.gesture({ kind: "picks", places: [{ name, place }], isShown: true }),
  compare: (/** @type {number} */ back) => machine.gesture({ kind: "compare", back }),
  compareChosen: (/** @type {string[]} */ names) => compareChosen(machine, names),
  leave: () => machine.send({ kind: "leave" }),
  openFiles: async (/** @type {Machine.File[]} */ given, areNamed = true) => {
    const { files, faults, isAny } = await withUnpacked(given, unpackedApart), rest = nets.take(files);
    return rest.length || faults.length || !files.length ? machine.open(rest, areNamed && !isAny, faults) : { opened: [], refused: [] };
  },
  plot: (/** @type {{ name: string }[]} */ layers, /** @type {number} */ pitch, /** @type {string} */ form) => machine.gesture({ kind: "plot", names: layers.map(({ name }) => name), pitch, form }),
  makeActive: (/** @type {string} */ name) => machine.gesture({ kind: "choose", name }),
  fit: () => machine.gesture({ kind: "fit" }),
};
Object.assign(globalThis, { camplot: hooks });

start().catch((fault) => tell(`The page could not start: ${faultWords(fault)}`, true));
