// Picking items: by a click the topmost of the shown layers, again at the same place the one under it; by a box many.

import { activeAfter } from "./drawn_into.js";
import { layerOf } from "./state.js";
import { lookOnly } from "./settling.js";
import { plural } from "../board/index.js";

// As many as a gesture may change.
export const GREATEST = 5000;

/** @param {Machine.Place} one @param {Machine.Place} other */
const isSame = (one, other) => one.name === other.name && one.place === other.place;

// Picks items, in addition to those that are, or in their place. Of added ones those that are picked already are let go.
/**
 * @template {Machine.Gesture["kind"]} K
 * @param {Machine.Turn<K>} turn
 * @param {Machine.Place[]} places
 * @param {boolean} isAdded
 * @param {Machine.LeftOf<K>} left what the end of the gesture knows of it
 * @param {Partial<Machine.State>} changes
 */
export function pick(turn, places, isAdded, left, changes = {}) {
  const { picked } = turn.state;
  const fresh = places.filter((place) => !isAdded || !picked.some((item) => isSame(item, place)));
  const kept = isAdded ? picked.filter((item) => !places.some((place) => isSame(item, place))) : [];
  const picks = [...kept, ...fresh.map((place) => ({ id: turn.number(), ...place, words: "", box: null }))];
  lookOnly(turn, picks, { active: activeAfter(turn.state, picks.at(-1)), ...changes }, left);
  return picks;
}

/** @type {Machine.Kind<"pickAt">} */
export const pickAt = {
  begin(turn, { x, y, reach, isAdded, pile }) {
    const { click, picked } = turn.state;
    const [one] = picked.length === 1 ? picked : [];
    const isAgain = click !== null && !isAdded && Math.hypot(click.x - x, click.y - y) <= reach && one?.id === click.id;
    const below = isAgain && one ? { name: one.name, place: one.place } : null;
    turn.ask({ stage: "under" }, { kind: "under", pile, x, y, below });
  },
  heard: {
    under(turn, { x, y, isAdded }, { found }) {
      if (!found && isAdded) {
        turn.say("Nothing lies there.");
        return turn.finish();
      }
      const picks = pick(turn, found ? [found] : [], isAdded, { found });
      const item = found && picks.find((other) => isSame(other, found));
      return turn.set({ click: item ? { x, y, id: item.id } : null });
    },
  },
  end(turn, gesture, { found }) {
    const item = found && turn.state.picked.find((other) => isSame(other, found));
    turn.say(item ? `${item.name} ${item.place}: ${item.words}` : found ? "" : "Nothing lies there.");
  },
};

// The items that lie in a box, or all that it touches.
/** @type {Machine.Kind<"pickIn">} */
export const pickIn = {
  begin(turn, { box, pile, isTouched = false }) {
    turn.ask({ stage: "inside" }, { kind: isTouched ? "touched" : "inside", names: pile, box, most: GREATEST });
  },
  heard: {
    inside(turn, { isAdded, isTouched }, { places }) {
      if (places.length > GREATEST) {
        const count = isTouched ? `More than ${plural(GREATEST, "item")}` : plural(places.length, "item");
        turn.say(`${count} lie there, and ${GREATEST} are the most that can be picked: draw a smaller box.`, true);
        return turn.finish();
      }
      return pick(turn, places, isAdded, { count: places.length });
    },
  },
  end(turn, { isTouched }, { count }) {
    const none = isTouched ? "The box touches no item." : "No item lies completely in the box.";
    turn.say(count ? `${plural(count, "item")} picked.` : none);
  },
};

// Places of layers, or all of a layer.
/** @type {Machine.Kind<"picks">} */
export const picks = {
  begin(turn, gesture) {
    const { isAdded = false, isShown = false, isLed = false } = gesture, { state } = turn;
    const wanted = gesture.places ?? placesOf(layerOf(state, gesture.all)), [one] = wanted.length === 1 ? wanted : [];
    const layer = one ? layerOf(state, one.name) : null;
    if (isShown && one && (!layer || one.place >= layer.items)) {
      turn.say(`${one.name} has no item ${one.place}.`, true);
      return turn.finish();
    }
    if (wanted.length > GREATEST) {
      turn.say(`${gesture.all} has more than ${GREATEST} items, too many to pick at once.`, true);
      return turn.finish();
    }
    const layers = isShown ? state.layers.map((other) => other === layer ? { ...other, isShown: true } : other) : state.layers;
    return pick(turn, wanted, isAdded, { isLed }, { layers });
  },
  end(turn, gesture, { isLed }) {
    if (isLed) turn.send({ to: "page", kind: "show picked" });
  },
};

/** @param {Machine.Layer | null} layer */
const placesOf = (layer) => layer ? Array.from({ length: layer.items }, (_, place) => ({ name: layer.name, place })) : [];
