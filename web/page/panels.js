// The panels beside the board: each can be folded away. In a small window they are drawers, which lie over the board when they
// are open, one at a time; and where there is little room they are folded until a person unfolds them.

import { byId, oneOf } from "./dom.js";
import { act } from "./actions.js";

const SIZES = { phone: "(max-width: 44rem)", small: "(max-width: 60rem)", narrow: "(max-width: 75rem)", low: "(max-height: 45rem)" };

// Each panel with its key, and the sizes of a window in which it is a drawer, or folded at first.
/** @typedef {"commands" | "left" | "right" | "foot"} Name */
/** @type {Record<Name, { key: string | null, words: string, drawer: string[], folded: string[] }>} */
const PANELS = {
  commands: { key: null, words: "the commands", drawer: ["phone"], folded: [] },
  left: { key: "q", words: "the layers and the history", drawer: ["small"], folded: [] },
  right: { key: "w", words: "the items and the nets", drawer: ["narrow"], folded: [] },
  foot: { key: "s", words: "the script", drawer: [], folded: ["phone", "low"] },
};

/** @type {Name[]} */
const names = ["commands", "left", "right", "foot"];

export class Panels {
  constructor() {
    this.sizes = Object.fromEntries(Object.entries(SIZES).map(([name, query]) => [name, matchMedia(query)]));
    // The drawer that is open, and of the other panels which a person folded or unfolded.
    /** @type {Name | null} */
    this.drawer = null;
    /** @type {Partial<Record<Name, boolean>>} */
    this.folded = {};
    for (const name of names) {
      const { key, words } = PANELS[name];
      act(`panel-${name}`, "View", `Fold or unfold ${words}`, key ? [key] : [], () => this.toggle(name));
    }
  }

  /** @param {string[]} sizes */
  isAny(sizes) {
    return sizes.some((name) => this.sizes[name]?.matches);
  }

  /** @param {Name} name */
  isDrawer(name) {
    return this.isAny(PANELS[name].drawer);
  }

  /** @param {Name} name */
  isOpen(name) {
    return this.isDrawer(name) ? this.drawer === name : !(this.folded[name] ?? this.isAny(PANELS[name].folded));
  }

  /** @param {Name} name */
  toggle(name) {
    if (this.drawer === name) return this.close();
    const hadFocus = byId(name).contains(document.activeElement);
    if (this.isDrawer(name)) this.drawer = name;
    else this.folded[name] = this.isOpen(name);
    this.show();
    // The next Tab goes to the first control of a panel that is unfolded.
    if (this.isOpen(name)) byId(name).focus({ preventScroll: true });
    else if (hadFocus) this.buttonOf(name).focus({ preventScroll: true });
    return undefined;
  }

  /** @param {Name} name */
  unfold(name) {
    if (!this.isOpen(name)) this.toggle(name);
  }

  // Closes the drawer that is open; whether one was.
  close() {
    const name = this.drawer;
    if (!name) return false;
    this.drawer = null;
    const hadFocus = byId(name).contains(document.activeElement);
    this.show();
    if (hadFocus) this.buttonOf(name).focus({ preventScroll: true });
    return true;
  }

  /** @param {Name} name */
  buttonOf(name) {
    return oneOf(`[aria-controls=${name}]`, HTMLElement);
  }

  // The strips at the edges of the board are in the drawer of the commands where these are one.
  placeStrips() {
    const isDrawer = this.isDrawer("commands");
    for (const [id, where] of /** @type {const} */ ([["tools", "beforebegin"], ["views", "afterend"]])) {
      const strip = byId(id);
      if (isDrawer === byId("commands").contains(strip)) continue;
      if (isDrawer) byId("commands").append(strip);
      else byId("stage").insertAdjacentElement(where, strip);
    }
  }

  show() {
    this.placeStrips();
    for (const name of names) {
      const isOpen = this.isOpen(name);
      document.body.dataset[name] = !isOpen ? "folded" : this.isDrawer(name) ? "drawer" : "open";
      this.buttonOf(name).setAttribute("aria-expanded", String(isOpen));
      if (isOpen) delete this.buttonOf(name).dataset.news;
    }
    byId("scrim").hidden = this.drawer === null;
  }

  /** @param {Page.Runner} machine */
  listen(machine) {
    for (const size of Object.values(this.sizes)) {
      size.onchange = () => {
        if (this.drawer && !this.isDrawer(this.drawer)) this.drawer = null;
        this.show();
      };
    }
    byId("scrim").onclick = () => this.close();
    this.show();
    // What comes to a panel that is folded is marked on its button.
    machine.panel(({ refused, comparison }) => [refused.length, comparison], ({ refused, comparison }) => {
      if ((refused.length || comparison) && !this.isOpen("left")) this.buttonOf("left").dataset.news = "yes";
    });
  }
}
