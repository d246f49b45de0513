// How large the pixels of a window are: by --dpi or by --pitch.

import { SIDE, pitchOf } from "../../web/board/index.js";
import { Call } from "./command.js";
import { DPI } from "./options.js";

/**
 * The pitch that a call asks for, in nm.
 * @param {{dpi: number | null, pitch: number | null}} options
 * @param {number} otherwise the pitch where it asks for none
 */
export function askedPitch({ dpi, pitch }, otherwise = pitchOf(DPI)) {
  if (dpi !== null && pitch !== null) throw new Call("--dpi and --pitch both tell how large a pixel is: give one of them");
  return pitch ?? (dpi === null ? otherwise : pitchOf(dpi));
}

/**
 * That a window has a coarser pitch than was asked for, in words; null where it has not.
 * @param {import("../../web/board/index.js").PlotWindow} window
 * @param {{dpi: number | null}} options
 * @param {number} pitch what was asked for, in nm
 */
export function coarser(window, { dpi }, pitch) {
  if (window.pitch === pitch) return null;
  const asked = dpi === null ? `pixels of ${pitch} nm` : `${dpi} pixels an inch`;
  return `${asked} would be more than ${SIDE} a side: the pitch is ${window.pitch} nm`;
}
