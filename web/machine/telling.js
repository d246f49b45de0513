// What the board says in words: what the worker is told of the layers for that, and all items that share a net, a component, an
// aperture or the like, which are lit or picked.

import { GREATEST, pick } from "./picking.js";
import { boxOf, entriesFrom, joined, plural } from "../board/index.js";
import { named } from "./named.js";

// A part of the board around what is found is seen too, this many nm to each side at least: enough to know where one is.
const AROUND = 4000000;

// The layers as the page knows them, and the unit of lengths.
/** @param {Machine.State} state @returns {Machine.Telling} */
export const tellingOf = ({ layers, unit }) => ({ unit, layers: layers.map(({ name, label, shows = "", kind, file = name }) =>
  ({ name, label, shows, kind, fileName: file })) });

/** @param {Machine.Shared} of */
const wordsOf = ({ kind, text }) => `${kind} ${text}`;

// Lights what shares something, or nothing any more; `isLed` where the view goes there.
/** @type {Machine.Kind<"light">} */
export const light = {
  begin(turn, { of }) {
    const { tables } = turn.state;
    if (!of) {
      turn.set({ lit: null });
      return turn.finish();
    }
    if (tables.lit) turn.set({ tables: { ...tables, lit: null } });
    return turn.ask({ stage: "lit", of }, { kind: "lit", of, ...tellingOf(turn.state) });
  },
  heard: {
    lit(turn, { isLed = false, isAgain = false }, { found, why }, { of }) {
      if (!found) {
        turn.set({ lit: null });
        turn.say(`The files can't be read for that: ${why}`, true);
        return turn.finish();
      }
      const items = found.items.map((item) => ({ ...item, box: boxOf(item.box) })), { told } = turn.state;
      const entries = named(Object.fromEntries(Object.entries(found.entries).map(([name, lines]) => [name, entriesFrom(lines)])));
      turn.set({ lit: { of, told, items, entries } });
      if (isLed) lead(turn, items);
      if (isAgain) return turn.finish();
      const { count } = found, some = items.length < count ? `, ${items.length.toLocaleString("en")} of which are lit` : "";
      turn.say(count ? `${wordsOf(of)}: ${plural(count, "item")}${some}.` : `${wordsOf(of)}: no item.`);
      return turn.finish();
    },
  },
};

// Shows what is lit: where its layers are all hidden, these too.
/** @param {Machine.Turn} turn @param {Machine.Found["items"]} items */
function lead(turn, items) {
  const names = new Set(items.map(({ name }) => name)), { layers } = turn.state, box = joined(items.map((item) => item.box));
  if (!layers.some(({ name, isShown }) => isShown && names.has(name))) {
    turn.set({ layers: layers.map((layer) => names.has(layer.name) ? { ...layer, isShown: true } : layer) });
  }
  if (!box) return;
  const { left, low, right, high } = box;
  turn.send({ to: "page", kind: "fit", box: { left: left - AROUND, low: low - AROUND, right: right + AROUND, high: high + AROUND } });
}

/** @type {Machine.Kind<"pickShared">} */
export const pickShared = {
  begin: (turn, { of }) => turn.ask({ stage: "shared" }, { kind: "shared", of, most: GREATEST, ...tellingOf(turn.state) }),
  heard: {
    shared(turn, { of }, { found, why }) {
      const isMany = found && found.count > GREATEST;
      if (!found || isMany) {
        turn.say(found ? `${wordsOf(of)} has ${plural(found.count, "item")}, and ${GREATEST} are the most that can be picked.`
          : `The files can't be read for that: ${why}`, true);
        return turn.finish();
      }
      return pick(turn, found.places, false, { count: found.count });
    },
  },
  end: (turn, { of }, { count }) => turn.say(`${wordsOf(of)}: ${plural(count, "item")} picked.`),
};
