// The floor of bytes: text of bytes, byte by byte or as UTF-8, and pictures of one bit a pixel, as PBM files hold them.
//
// It is not about boards: it does not know what a file means. It imports nothing.
//
// A picture is { width, height, stride, bits }: rows from the top, `stride` bytes each, the highest bit on the left, 1 for black.
//
//     import { latin1Bytes, readPbm } from "./index.js";
//     readPbm(latin1Bytes("P4\n8 1\n\x80")).width; // 8

export { isPbm, readPbm } from "./pbm.js";
export { hasByteOrderMark, latin1, latin1Bytes, utf8 } from "./text.js";

/** @typedef {import("./pbm.js").Picture} Picture */
