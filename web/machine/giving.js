// Pictures in colours to be given away. The station is asked for the layers' pictures, and none of it is a line of the script.

import { boxOf, joined, mm } from "../board/index.js";
import { drawnLayers, isMadeShown, shownLayers } from "./state.js";

// A side has so many pixels at most, as browsers allow a canvas, and all pictures together so many, 128 MB of bits. What is printed
// has fewer, of the least pitch that fits, and none below 5 µm, about 5,000 dots an inch.
const SIDE = 16384, ALL = 2 ** 30, PRINTED = 6000, LEAST_PRINTED = 5000;
// The board as it will be made has four of the station's pixels for each of its own.
const BOARD_SIDE = 8192;

// The window around a box, a pixel wider on each side.
/** @param {Board.Box} box @param {number} pitch @returns {Machine.Area} */
function windowOf(box, pitch) {
  const left = Math.floor(box.left / pitch) - 1, low = Math.floor(box.low / pitch) - 1;
  const width = Math.ceil(box.right / pitch) + 1 - left, height = Math.ceil(box.high / pitch) + 1 - low;
  return { left: left * pitch, low: low * pitch, pitch, width, height };
}

// The pitch at which a box is printed.
/** @param {Board.Box} box */
const printedPitch = ({ left, low, right, high }) => Math.max(LEAST_PRINTED, Math.ceil(Math.max(right - left, high - low) / PRINTED));

/** @param {Machine.Turn<"give">} turn @param {string} form @param {number} given @param {string[]} boxes @param {string[]} layers */
function askForPictures(turn, form, given, boxes, layers) {
  const box = joined(boxes.map(boxOf)), pitch = box && form === "print" ? printedPitch(box) : given;
  const window = box && windowOf(box, pitch);
  const isSmall = window && Math.max(window.width, window.height) <= SIDE && window.width * window.height * layers.length <= ALL;
  if (!window || !isSmall) {
    turn.say(window ? `That is more than ${SIDE.toLocaleString("en")} pixels along a side, or than ${
      ALL.toLocaleString("en")} of all layers: use fewer dots an inch.` : "The shown layers have nothing to draw.", true);
    return turn.finish();
  }
  const { left, low, width, height } = window;
  return turn.ask({ stage: "pictures", names: layers, area: window },
    { kind: "pictures", names: layers, line: `window ${left} ${low} ${pitch} ${width} ${height}` });
}

// The side of the board as it will be made, which the page asks the worker for; its pitch is even.
/** @param {Machine.Turn<"give">} turn @param {string} form @param {number} given @param {string[]} boxes */
function handBoard(turn, form, given, boxes) {
  const box = joined(boxes.map(boxOf)), asked = box && form === "print" ? printedPitch(box) : given, pitch = 2 * Math.ceil(asked / 2);
  const window = box && windowOf(box, pitch);
  if (!window || Math.max(window.width, window.height) > BOARD_SIDE) {
    turn.say(window ? `That is more than ${BOARD_SIDE.toLocaleString("en")} pixels along a side: use fewer dots an inch.`
      : "The layers have nothing to draw.", true);
    return turn.finish();
  }
  const size = `${mm(window.width * pitch)} by ${mm(window.height * pitch)} mm`, pixels = `pixels of ${pitch.toLocaleString("en")} nm`;
  return handOut(turn, { kind: "give board", window, form }, form === "print"
    ? `The board as it will be made goes to the printer, ${size}, with ${pixels}: print at actual size.`
    : `The board as it will be made is saved as board.svg, with ${pixels}.`);
}

/** @param {Machine.Turn<"give">} turn @param {Machine.HandedOut} message @param {string} words */
function handOut(turn, message, words) {
  turn.work({ stage: "handing", words });
  turn.send({ to: "page", number: turn.underWay.number, ...message });
}

/** @type {Machine.Kind<"give">} */
export const give = {
  begin(turn, { form }) {
    const isMade = isMadeShown(turn.state), shown = isMade ? turn.state.layers : shownLayers(turn.state);
    const isAny = form === "png" ? drawnLayers(turn.state).length > 0 || isMade : shown.length > 0;
    if (!isAny) {
      turn.say("No layer is shown.", true);
      return turn.finish();
    }
    if (form === "png") return handOut(turn, { kind: "give view" }, "The view is saved as view.png.");
    const names = shown.map(({ name }) => name);
    return turn.ask({ stage: "boxes", names }, { kind: "boxes", names });
  },
  heard: {
    boxes: (turn, { form, pitch }, { boxes }, { names }) => isMadeShown(turn.state) ? handBoard(turn, form, pitch, boxes)
      : askForPictures(turn, form, pitch, boxes, names),
    pictures(turn, { form, pitch }, { pictures }, { area: window, names: layers }) {
      if (!pictures) {
        turn.say("Nothing is saved: the station draws no such picture.", true);
        return turn.finish();
      }
      if (form === "print") {
        return handOut(turn, { kind: "give print", window, pictures, layers },
          `The shown layers go to the printer, ${mm(window.width * window.pitch)} by ${mm(window.height * window.pitch)} mm, with pixels of ${
            window.pitch.toLocaleString("en")} nm: print at actual size.`);
      }
      return handOut(turn, { kind: "give svg", window, pictures, layers },
        `The shown layers are saved as board.svg, with pixels of ${pitch.toLocaleString("en")} nm.`);
    },
    handing(turn, gesture, { why }, { words }) {
      turn.say(why ? `Nothing is saved: ${why}` : words, Boolean(why));
      return turn.finish();
    },
  },
};
