// Picking all that is like what is picked: of the same aperture or tool, or of the same kind, in the same layer; or like what `of`
// says, { name, key }.

import { GREATEST, pick } from "./picking.js";
import { plural } from "../board/index.js";

const WITHOUT = new Set(["region", "repeat"]);

// What an item is like by: its kind, or the number of its aperture or tool; null where it has none.
/** @param {Machine.Picked} item @param {string} by */
function keyOf({ words }, by) {
  const [kind = "", number] = words.split(" ", 2);
  if (by === "kind") return kind || null;
  return WITHOUT.has(kind) ? null : number ?? null;
}

/** @type {Machine.Kind<"pickLike">} */
export const pickLike = {
  begin(turn, { by, of: given = null }) {
    const { picked } = turn.state;
    const of = given ?? picked.flatMap((item) => {
      const key = keyOf(item, by);
      return key === null ? [] : [{ name: item.name, key }];
    });
    if (!of.length) {
      turn.say(picked.length ? "What is picked has no aperture and no tool." : "Pick an item first, then all that is like it.",
        true);
      return turn.finish();
    }
    return turn.ask({ stage: "like" }, { kind: "like", by, of, most: GREATEST });
  },
  heard: {
    like(turn, gesture, { places }) {
      if (places.length > GREATEST) {
        turn.say(`More than ${GREATEST} items are like it, too many to pick at once.`, true);
        return turn.finish();
      }
      return pick(turn, places, false, { count: places.length });
    },
  },
  end(turn, gesture, { count }) {
    turn.say(`${plural(count, "item")} picked.`);
  },
};
