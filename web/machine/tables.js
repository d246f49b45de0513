// What the tables of tools and apertures show: how many items each has, and those of the one that is lit.

import { boxOf, entriesFrom } from "../board/index.js";
import { layerOf } from "./state.js";
import { named } from "./named.js";

// The layers of the tables that are open: all drill layers, and the chosen layer where it is a Gerber one.
/** @param {Machine.State} state */
export const tabled = ({ layers, active, tables: { isDrill, isApertures } }) => layers.filter(({ name, kind }) =>
  kind === "drill" ? isDrill : isApertures && name === active).map(({ name }) => name);

/** @param {{ counts: Machine.Tally["counts"], entries: string[] }} found @returns {Machine.Tally} */
const described = ({ counts, entries }) => ({ counts, entries: entriesFrom(entries) });

// Counts anew, and looks which items are lit: `changes` says what else the tables show.
/** @type {Machine.Kind<"tally">} */
export const tally = {
  begin(turn, { changes = {} }) {
    const tables = { ...turn.state.tables, ...changes };
    turn.set({ tables });
    const { lit } = tables, names = tabled(turn.state).filter((name) => layerOf(turn.state, name));
    if (!names.length && !lit) return turn.finish();
    const isLit = lit !== null && layerOf(turn.state, lit.name) !== null;
    return turn.ask({ stage: "tally" }, { kind: "tally", names, lit: isLit ? { name: lit.name, number: lit.number } : null });
  },
  heard: {
    tally(turn, gesture, { layers, lit }) {
      const { tables, told } = turn.state;
      const items = (lit ?? []).map((item) => ({ ...item, box: boxOf(item.box) }));
      turn.set({ tables: { ...tables, told, lit: lit && tables.lit ? { ...tables.lit, items } : null,
        found: named(Object.fromEntries(Object.entries(layers).map(([name, found]) => [name, described(found)]))) } });
      return turn.finish();
    },
  },
};
