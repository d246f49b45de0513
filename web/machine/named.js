// Tables by names that files and people give: one of them may be `constructor`, so these tables have no prototype.

/** @template T @param {Record<string, T>[]} tables @returns {Record<string, T>} */
export const named = (...tables) => Object.assign(Object.create(null), ...tables);
