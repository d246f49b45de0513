// Places, points and counts in words.

/**
 * A length in nm as mm, with the digits that it needs, three at least.
 * @param {number} nm
 */
export function mm(nm) {
  const whole = Math.round(nm), digits = String(Math.abs(whole)).padStart(7, "0");
  const fraction = digits.slice(-6).replace(/0{1,3}$/, "");
  return `${whole < 0 ? "-" : ""}${digits.slice(0, -6)}.${fraction}`;
}

/**
 * A place as `(12.500, -3.250)`, in mm.
 * @param {{x: number, y: number}} place
 */
export function placeWords({ x, y }) {
  return `(${mm(x)}, ${mm(y)})`;
}

/**
 * `1 net`, `2 nets`.
 * @param {number} count
 * @param {string} what
 * @param {string} [many]
 */
export function counted(count, what, many = `${what}s`) {
  return `${count} ${count === 1 ? what : many}`;
}
