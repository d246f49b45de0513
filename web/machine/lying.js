// What lies at a point as a menu: all items there, the topmost first, of which a person chooses one.

import { pick } from "./picking.js";

// Asks what lies at a point of the layers of a pile.
/** @type {Machine.Kind<"pile">} */
export const pile = {
  begin(turn, { x, y, pile: names }) {
    turn.set({ menu: null });
    return turn.ask({ stage: "pile" }, { kind: "pile", pile: names, x, y });
  },
  heard: {
    pile(turn, { x, y }, { items, isMore }) {
      const { told } = turn.state;
      if (items.length) turn.set({ menu: { x, y, items, isMore, told } });
      else turn.say("Nothing lies there.");
      return turn.finish();
    },
  },
};

// Picks an item of the menu, which is of the board as it was then.
/** @type {Machine.Kind<"pickListed">} */
export const pickListed = {
  begin(turn, { menu, item: { name, place }, isAdded }) {
    turn.set({ menu: null });
    if (menu.told !== turn.state.told) {
      turn.say("The board was changed meanwhile, so nothing was picked.", true);
      return turn.finish();
    }
    return pick(turn, [{ name, place }], isAdded, { item: { name, place } });
  },
  end(turn, gesture, { item: { name, place } }) {
    const item = turn.state.picked.find((other) => other.name === name && other.place === place);
    turn.say(item ? `${name} ${place}: ${item.words}` : "");
  },
};

// How far two picked items are from one another by their pixels, where their shapes have no simple form.
/** @type {Machine.Kind<"gap">} */
export const gap = {
  begin(turn) {
    const { picked } = turn.state;
    if (picked.length !== 2) return turn.finish();
    return turn.ask({ stage: "gap" }, { kind: "gap", pair: picked.map(({ name, words }) => ({ name, words })) });
  },
  heard: {
    gap(turn, gesture, { gap: found }) {
      turn.set({ gap: { picked: turn.state.picked, found } });
      return turn.finish();
    },
  },
};
