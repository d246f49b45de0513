// Loads a layer, picks the item at a point, moves it, plots the layer, writes its text, and undoes the move.
//
//   node example.js [LAYER.gbr]     by default a flash and a draw of its own

import { readFileSync, writeFileSync } from "node:fs";
import { Station } from "camplot";

const OWN = "%FSLAX46Y46*%\n%MOMM*%\n%ADD10C,1.000000*%\nG01*\nD10*\nX0Y0D03*\nX2000000Y0D02*\nX4000000Y0D01*\nM02*\n";
const bytes = process.argv[2] ? readFileSync(process.argv[2]) : OWN;

const station = await Station.open();
station.run("load top gerber top.gbr", bytes);
console.log("layers:", station.ask("layers").join("; "));

const [box = ""] = station.ask("box top"), [x0 = 0, y0 = 0, x1 = 0, y1 = 0] = box.split(" ").map(Number);
const [place] = station.ask(`in top ${Math.floor(x0)} ${Math.floor(y0)} ${Math.ceil(x1)} ${Math.ceil(y1)}`);
console.log(`item ${place}:`, station.ask(`item top ${place}`)[0]);
station.run(`move top ${place} 500000 0`);
console.log("moved: ", station.ask(`item top ${place}`)[0]);

const pitch = Math.ceil(Math.max(x1 - x0, y1 - y0) / 512) + 1;
station.run(`window ${Math.floor(x0) - 8 * pitch} ${Math.floor(y0) - 8 * pitch} ${pitch} 528 528`);
const picture = station.run("plot top top.pbm");
writeFileSync("top.pbm", picture);
console.log("top.pbm:", picture.length, "bytes");
const text = station.run("write top top.gbr");
console.log("the text has", text.length, "bytes");

station.run("undo");
console.log("undone:", station.ask(`item top ${place}`)[0]);
station.close();
