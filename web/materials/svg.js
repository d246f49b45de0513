// A picture of a side as SVG, to scale.

// Pixels stay squares; old programs know the first, and new ones the second.
const SHARP = "image-rendering:optimizeSpeed;image-rendering:pixelated";

/** @param {string} text */
const escaped = (text) => text.replace(/[^\t\n\r\x20-\ud7ff\ue000-\ufffd]/g, "")
  .replace(/[&<>"]/g, (letter) => `&#${letter.charCodeAt(0)};`);

/**
 * The SVG of a picture, with its width and height in mm.
 * @param {{width: number, height: number, pitch: number}} window its sides in pixels, and their side in nm
 * @param {string} title
 * @param {string} png the picture as PNG in base64
 * @returns {string}
 */
export function svgOf({ width, height, pitch }, title, png) {
  return `<?xml version="1.0" encoding="UTF-8"?>\n<svg xmlns="http://www.w3.org/2000/svg" xmlns:xlink="http://www.w3.org/1999/xlink" `
    + `width="${width * pitch / 1e6}mm" height="${height * pitch / 1e6}mm" viewBox="0 0 ${width} ${height}">\n`
    + `<title>${escaped(title)}</title>\n<image width="${width}" height="${height}" preserveAspectRatio="none" style="${SHARP}" `
    + `xlink:href="data:image/png;base64,${png}"/>\n</svg>\n`;
}
