// The actions of what the board says: finding, and about this board.

import { AboutPanel } from "./about_panel.js";
import { FindPanel } from "./find_panel.js";
import { RestTip } from "./rest_tip.js";
import { Telling } from "./telling.js";
import { act } from "./actions.js";

/** @param {Page.Parts} page */
export function nameTelling(page) {
  const telling = new Telling(page.machine), found = new FindPanel(page, telling), about = new AboutPanel(page, telling);
  new RestTip(page, telling);
  act("find", "View", "Find a net, a component, a pin, an aperture, a place", ["Ctrl+f"], () => found.open());
  act("about", "View", "About this board", ["Shift+a"], () => about.open());
}
