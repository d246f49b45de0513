/** What to do about what camplot does not read: options of the tool, and settings of CAD programs. */

/** What may be rounded to be written. */
export const NEAREST = "or give --nearest";
export const ANEW = "plot the layer again as RS-274X (extended Gerber) or X2";
export const REGIONS = "have such pads plotted as regions";
export const TURNS = "have such pads plotted as regions, or turn them to a quarter; in KiCad tick Disable aperture " +
  `macros; ${NEAREST}`;
export const PENS = "have areas filled with a round pen, or by regions";
