// The actions of looking and measuring: what lies at a point, snaps, the origin of lengths, quarter turns of the view.

import { act, press } from "./actions.js";

// The next click says where the origin is; where there is one, there is none again.
/** @param {Page.Parts} page */
function nameOrigin({ machine }) {
  act("origin", "Tools", "The origin of lengths: the next click says where, or that of the board again", ["Shift+o"], () => {
    const { origin, tool } = machine.state;
    if (origin) machine.send({ kind: "setting", changes: { origin: null } });
    else machine.send({ kind: "tool", name: tool === "origin" ? "pick" : "origin" });
  });
  machine.panel(({ origin, tool }) => [origin, tool], ({ origin, tool }) => press("origin", origin !== null || tool === "origin"));
}

/** @param {Page.Parts} page */
export function nameLooking(page) {
  const { machine, view, pointer, keepLooks } = page;
  act("lying", "Edit", "List all that lies under the pointer", ["e", "ContextMenu", "Shift+F10"],
    () => pointer.list(pointer.last ?? { x: view.canvas.width / 2, y: view.canvas.height / 2 }));
  act("snaps", "Tools", "Points snap to items, or not", ["z"],
    () => machine.send({ kind: "setting", changes: { hasSnaps: !machine.state.hasSnaps } }));
  machine.panel(({ hasSnaps }) => [hasSnaps], ({ hasSnaps }) => {
    press("snaps", hasSnaps);
    pointer.look();
  });
  act("quarter", "View", "Turn the view a quarter counterclockwise", ["Shift+t"], () => {
    view.turnTo(view.quarters + 1);
    keepLooks();
  });
  nameOrigin(page);
}
