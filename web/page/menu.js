// The menu of what lies at a point: all items there, the topmost first. The mouse, the keys or a finger choose one.

import { button, byId, element } from "./dom.js";
import { boxOf, itemOf, lengthText, plural } from "../board/index.js";
import { layerOf } from "../machine/index.js";

// An item in a few words: what it is, and how large.
/** @param {Machine.Listed} item @param {string} unit */
function itemWords({ words, box }, unit) {
  const item = itemOf(words), [kind = ""] = words.split(" ", 1);
  const ofEntry = item?.number ? ` of ${/hit|rout/.test(kind) ? "tool" : "aperture"} ${item.number}` : "";
  const of = item?.kind === "region" ? ` of ${plural(item.segments.length, "side")}` : ofEntry;
  const sides = boxOf(box);
  const size = sides ? `, ${lengthText(sides.right - sides.left, unit)} by ${lengthText(sides.high - sides.low, unit)} ${unit}` : "";
  const isClear = item && "polarity" in item && item.polarity === "clear";
  return `${kind}${of}${size}${isClear ? ", clear" : ""}`;
}

export class Menu {
  /** @param {Page.Runner} machine @param {Page.View} view @param {import("./signs.js").Signs} signs */
  constructor(machine, view, signs) {
    this.machine = machine;
    this.view = view;
    this.signs = signs;
    this.list = byId("lying");
    /** @type {Machine.Menu | null} the one that is shown */
    this.menu = null;
    this.list.onkeydown = (event) => this.key(event);
    // (a press elsewhere, and another view, close it)
    document.addEventListener("pointerdown", (event) => {
      if (!this.list.hidden && !this.list.contains(/** @type {Node} */ (event.target))) this.close();
    }, true);
    byId("marks").addEventListener("wheel", () => this.close(), { passive: true });
    machine.panel(({ menu, told, layers, unit }) => [menu, told, layers, unit], (state) => this.show(state));
  }

  close() {
    if (this.machine.state.menu) this.machine.send({ kind: "setting", changes: { menu: null } });
  }

  /** @param {Machine.Menu} menu @param {Machine.Listed} item @param {boolean} isAdded */
  choose(menu, item, isAdded) {
    const { name, place } = item;
    this.machine.gesture({ kind: "pickListed", menu, item: { name, place }, isAdded });
    byId("marks").focus({ preventScroll: true });
  }

  /** @param {Machine.State} state @param {Machine.Menu} menu @param {Machine.Listed} item */
  row(state, menu, item) {
    const layer = layerOf(state, item.name);
    /** @param {Machine.Listed | null} listed */
    const light = (listed) => () => this.light(listed);
    const mark = element("i", {});
    mark.style.background = layer?.colour ?? "";
    const row = button("", (event) => this.choose(menu, item, event.shiftKey), { role: "menuitem", onfocus: light(item),
      onmouseenter: light(item), onblur: light(null), onmouseleave: light(null) });
    row.append(mark, element("b", {}, `${layer?.label ?? item.name} ${item.place}`), ` ${itemWords(item, state.unit)}`);
    return row;
  }

  /** @param {Machine.Listed | null} listed */
  light(listed) {
    this.signs.listed = listed && { ...listed, box: boxOf(listed.box) };
    this.view.paint();
  }

  /** @param {Machine.State} state */
  show(state) {
    const { menu } = state, { list } = this, isShown = menu !== null && menu.told === state.told;
    const hadFocus = list.contains(document.activeElement), wasShown = !list.hidden && this.menu === menu;
    this.menu = menu;
    list.hidden = !isShown;
    if (!isShown) {
      this.light(null);
      list.replaceChildren();
      if (hadFocus) byId("marks").focus({ preventScroll: true });
      return;
    }
    const more = menu.isMore ? [element("p", { className: "hint" }, `${menu.items.length} of more`)] : [];
    list.replaceChildren(...menu.items.map((item) => this.row(state, menu, item)), ...more);
    if (!wasShown) this.place(menu);
    list.querySelector("button")?.focus({ preventScroll: true });
  }

  // Beside its point, and within the board.
  /** @param {Board.Point} at */
  place({ x, y }) {
    const { view, list } = this, at = view.placeOf(x, y), { clientWidth, clientHeight } = byId("stage");
    /** @param {number} value @param {number} most */
    const within = (value, most) => `${Math.max(0, Math.min(value, most))}px`;
    list.style.left = within(at.x / view.density + 8, clientWidth - list.offsetWidth);
    list.style.top = within(at.y / view.density + 8, clientHeight - list.offsetHeight);
  }

  /** @param {KeyboardEvent} event */
  key(event) {
    const rows = [...this.list.querySelectorAll("button")], at = rows.findIndex((row) => row === document.activeElement);
    const to = { ArrowDown: at + 1, ArrowUp: at - 1 + rows.length, Home: 0, End: rows.length - 1 }[event.key];
    event.stopPropagation();
    if (to !== undefined) {
      event.preventDefault();
      rows[to % rows.length]?.focus();
    } else if (event.key === "Escape" || event.key === "Tab") {
      event.preventDefault();
      this.close();
    }
  }
}
