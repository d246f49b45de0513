// The table of all commands: each with its group, its label, its keys, what it does, and why it cannot be done now. Buttons, keys,
// the list of commands and the page of keys are made from it.

import { act, press, showKeys } from "./actions.js";
import { activeBy } from "./layer_panel.js";
import { byId } from "./dom.js";
import { changeLook, changeUnit } from "./looks.js";
import { drawingTools, isBlank } from "../machine/index.js";
import { openExample } from "./example.js";
import { noLayer, noTool, nothingDone, nothingOpen, nothingPicked, nothingToCompare, nothingUndone } from "./reasons.js";
import { pileOf } from "./pointer.js";
import { raise } from "./layer_settings.js";
import { askForScript } from "./saving.js";
import { nameArranging } from "./arranging.js";
import { nameComparing } from "./compared_panel.js";
import { nameEdges } from "./edges.js";
import { nameGroups } from "./layer_groups.js";
import { nameLooking } from "./looking.js";
import { nameTelling } from "./telling_actions.js";
import { switchBoard } from "./board_view.js";

// The name of the chosen layer; none has the empty name.
/** @param {Page.Runner} machine */
const chosenIn = ({ state }) => state.active ?? "";

// What a key does to what is picked, and else to the view.
/** @param {Page.Parts} page @param {number} x @param {number} y @returns {Page.Action["run"]} */
const step = ({ machine, view, held }, x, y) => (event) => {
  const { grid, picked, work, queue } = machine.state, length = grid * (event.shiftKey ? 10 : 1), way = view.wayOf(x, -y);
  // (where something is under way, what is picked is known when its turn comes)
  if (picked.length || work || queue.length) return held.stroke(way.x * length, way.y * length);
  const pixels = 80 * view.density;
  return view.pan(-x * pixels, y * pixels);
};

/** @param {Page.Parts} page */
function nameFiles({ machine, boards }) {
  /** @param {"plot" | "give" | "anew"} kind */
  const ask = (kind) => () => machine.send({ kind: "ask", question: { kind } });
  act("open", "Files", "Open files", ["Ctrl+o"], () => byId("files").click());
  act("open-folder", "Files", "Open a folder", ["Ctrl+Shift+o"], () => byId("folder").click());
  act("example", "Files", "Try an example: a small board", [], () => machine.await(openExample(machine, boards)));
  act("save", "Files", "Save all layers", ["Ctrl+s"], () => machine.gesture({ kind: "save" }), noLayer);
  act("save-layer", "Files", "Save this layer", ["Ctrl+Shift+s"], () => machine.gesture({ kind: "save", name: chosenIn(machine) }), noLayer);
  act("save-bare", "Files", "Save all layers without attributes of items", [],
    () => machine.gesture({ kind: "save", isWhole: false }), noLayer);
  act("save-layer-bare", "Files", "Save this layer without attributes of items", [],
    () => machine.gesture({ kind: "save", name: chosenIn(machine), isWhole: false }), noLayer);
  act("plot", "Files", "Save a plot", ["Ctrl+p"], () => machine.state.layers.length ? ask("plot")()
    : machine.send({ kind: "say", text: "No layer is open.", isFault: true }), noLayer);
  act("give", "Files", "Save a picture in colours", ["Shift+p"], ask("give"), nothingOpen);
  act("save-script", "Files", "Save the script with its files", ["Ctrl+e"], () => askForScript(machine));
  act("close-layer", "Files", "Close the chosen layer", [], () => machine.gesture({ kind: "close", name: chosenIn(machine) }), noLayer);
  act("new-board", "Files", "Another board, in a tab of its own", [], () => boards.add());
  act("close-board", "Files", "Close the board", [], () => machine.gesture({ kind: "closeAll" }),
    (now) => isBlank(now) && boards.list.length < 2 ? "No board is open." : null);
  act("anew", "Files", "Start over", [], ask("anew"));
}

/** @param {Page.Parts} page */
function nameEdits(page) {
  const { machine } = page;
  /** @param {Machine.Gesture} gesture */
  const does = (gesture) => () => machine.gesture(gesture);
  act("undo", "Edit", "Undo", ["Ctrl+z"], does({ kind: "edit", verb: "undo" }), nothingDone);
  act("redo", "Edit", "Redo", ["Ctrl+y", "Ctrl+Shift+z"], does({ kind: "edit", verb: "redo" }), nothingUndone);
  act("delete", "Edit", "Delete what is picked", ["Delete", "Backspace"], does({ kind: "edit", verb: "delete" }), nothingPicked);
  act("copy", "Edit", "Copy", ["Ctrl+c"], does({ kind: "copy" }), nothingPicked);
  act("paste", "Edit", "Paste into the chosen layer", ["Ctrl+v"], () => {
    const far = 10 * machine.state.grid;
    return machine.gesture({ kind: "edit", verb: "paste", dx: far, dy: far });
  }, ({ copied }) => copied.length ? null : "Nothing was copied.");
  act("pick-all", "Edit", "Pick all items of the chosen layer", ["Ctrl+a"],
    () => machine.gesture({ kind: "picks", all: chosenIn(machine) }), noLayer);
  act("dark", "Edit", "Make dark", ["d"], does({ kind: "edit", verb: "polarity", value: "dark" }), nothingPicked);
  act("clear", "Edit", "Make clear", ["x"], does({ kind: "edit", verb: "polarity", value: "clear" }), nothingPicked);
  act("earlier", "Edit", "One place earlier in the list", ["["], does({ kind: "edit", verb: "reorder", by: -1 }), nothingPicked);
  act("later", "Edit", "One place later in the list", ["]"], does({ kind: "edit", verb: "reorder", by: 1 }), nothingPicked);
  for (const [key, x, y, words] of /** @type {const} */ ([["ArrowLeft", -1, 0, "left"], ["ArrowRight", 1, 0, "right"],
    ["ArrowUp", 0, 1, "up"], ["ArrowDown", 0, -1, "down"]])) {
    act(`step-${words}`, "Edit", `Move ${words} what is picked, with Shift ten steps; else the view`,
      [key, `Shift+${key}`], step(page, x, y));
  }
}

/** @param {Page.Parts} page */
function nameTools({ machine, view, pointer, marks, panels }) {
  /** @param {string} name */
  const tool = (name) => () => machine.send({ kind: "tool", name });
  act("pick", "Tools", "Pick and move", ["v"], tool("pick"));
  act("pan", "Tools", "Move the view", ["h"], tool("pan"));
  act("measure", "Tools", "Measure", ["m"], tool("measure"));
  act("net", "Tools", "Net: light what hangs together", ["n"], tool("net"));
  for (const [name, key] of /** @type {const} */ ([["flash", "1"], ["draw", "2"], ["arc", "3"], ["region", "4"], ["hit", "5"], ["rout", "6"]])) {
    act(name, "Tools", drawingTools[name]?.label ?? name, [key], tool(name), noTool(name));
  }
  act("end", "Tools", "End a region or a rout", ["Enter"], () => machine.send({ kind: "endMaking" }));
  act("escape", "Tools", "Let go", ["Escape"], () => {
    if (panels.close()) return;
    // (the measures go first, and with them their tool where that is taken)
    if (marks.forget() && machine.state.tool !== "measure") return;
    machine.send({ kind: "escape" });
  });
  act("pick-under", "Tools", "Pick under the pointer, again for the item below", [" "], () => {
    const at = pointer.last ?? { x: view.canvas.width / 2, y: view.canvas.height / 2 };
    return machine.gesture({ kind: "pickAt", ...pointer.under(at), reach: 8 * view.density * view.pitch, isAdded: false,
      pile: pileOf(machine.state, view.isMirrored) });
  });
}

/** @param {Page.Parts} page */
function copyPoint({ machine, pointer }) {
  if (!pointer.last) return;
  const { x, y } = pointer.under(pointer.last);
  navigator.clipboard?.writeText(`${x} ${y}`).catch(() => {});
  machine.send({ kind: "say", text: `${x} ${y}` });
}

// What is looked at: a point, a link to the view, from above or from below.
/** @param {Page.Parts} page */
function nameGoing({ machine, view, going, keepLooks }) {
  act("go", "View", "Go to a point", ["g"], () => machine.send({ kind: "ask", question: { kind: "go" } }));
  act("link", "View", "Copy a link to this view", [], () => going.copyLink());
  view.onMirror = () => {
    press("below", view.isMirrored);
    press("quarter", view.quarters > 0);
  };
  act("below", "View", "From below, or from above", ["Shift+b"], () => {
    view.mirror(!view.isMirrored);
    keepLooks();
  });
}

/** @param {Page.Parts} page */
function nameViews(page) {
  const { machine, view } = page;
  /** @param {Machine.Event} event */
  const send = (event) => () => machine.send(event);
  /** @param {number} factor */
  const zoomBy = (factor) => () => view.zoom(factor, view.canvas.width / 2, view.canvas.height / 2);
  act("fit", "View", "Show the whole board", ["0"], () => machine.gesture({ kind: "fit" }), nothingOpen);
  act("fit-picked", "View", "Show what is picked", ["f"], send({ kind: "showPicked" }), nothingPicked);
  act("zoom-in", "View", "Closer", ["+", "="], zoomBy(1.5));
  act("zoom-out", "View", "Farther", ["-"], zoomBy(1 / 1.5));
  act("only", "View", "Show the chosen layer alone, or those before", ["o"],
    () => machine.send({ kind: "only", name: chosenIn(machine) }), noLayer);
  act("toggle", "View", "Show or hide the chosen layer", ["t"], send({ kind: "toggle" }), noLayer);
  act("all", "View", "Show all layers", ["a"], send({ kind: "show", name: null, isShown: true }), noLayer);
  act("none", "View", "Hide all layers", [], send({ kind: "show", name: null, isShown: false }), noLayer);
  act("layer-up", "View", "Choose the layer above", ["PageUp"], () => activeBy(machine, 1), noLayer);
  act("layer-down", "View", "Choose the layer below", ["PageDown"], () => activeBy(machine, -1), noLayer);
  act("raise", "View", "The chosen layer up in the pile", ["Shift+PageUp"], () => raise(machine, 1), noLayer);
  act("lower", "View", "The chosen layer down in the pile", ["Shift+PageDown"], () => raise(machine, -1), noLayer);
  act("board", "View", "The side of the board as it will be made, or the layers again", ["b"], () => switchBoard(machine), noLayer);
  act("compare", "View", "Compare with before the last step, or go back", ["Shift+c"],
    () => machine.gesture({ kind: "compare", back: 1 }), nothingToCompare);
  act("copy-point", "View", "Copy the point under the pointer, in nm", ["c"], () => copyPoint(page));
  act("unit", "View", "The next unit: mm, inch, mil", ["u"], () => changeUnit(machine));
  act("look", "View", "Dark or light", ["l"], () => {
    changeLook(view);
    page.keepLooks();
  });
}

/** @param {Page.Parts} page */
export function nameActions(page) {
  nameFiles(page);
  nameEdits(page);
  nameArranging(page);
  nameTools(page);
  nameComparing(page);
  nameViews(page);
  nameGroups(page);
  nameEdges(page);
  nameGoing(page);
  nameLooking(page);
  nameTelling(page);
  act("line", "Help", "Type a line of the script", [":"], () => {
    page.panels.unfold("foot");
    byId("line").focus();
  });
  act("palette", "Help", "All commands by their names", ["Ctrl+k"], () => page.palette.open());
  act("keys", "Help", "All keys", ["?", "F1"], showKeys);
}
