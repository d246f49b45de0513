// The functions of apertures in words (Gerber Layer Format Specification, ".AperFunction"), and what an item is called by its
// function and its layer.

import { plain } from "./attributes.js";

/** @typedef {import("../attributes/index.js").Attribute} Attribute */
/** @typedef {import("./layers.js").ToldLayer} ToldLayer */
/** @typedef {import("./paths.js").Item} Item */

// Each function: what a flash of it is called, where that is a name of its own, and its words.
/** @type {Record<string, [noun: string, words: string]>} */
const FUNCTIONS = {
  ViaDrill: ["", "via"], BackDrill: ["", "back drilling"], ComponentDrill: ["", "lead of a component"],
  MechanicalDrill: ["", "mechanical"], CastellatedDrill: ["", "castellation"], OtherDrill: ["", "other"],
  ComponentPad: ["pad", "pad of a lead through the board"], SMDPad: ["pad", "SMD pad"], BGAPad: ["pad", "BGA pad"],
  ConnectorPad: ["connector pad", "pad of an edge connector"], HeatsinkPad: ["heat sink pad", "heat sink pad"],
  ViaPad: ["via", "via pad"], TestPad: ["test pad", "test pad"], CastellatedPad: ["castellated pad", "castellated pad"],
  FiducialPad: ["fiducial", "fiducial"], ThermalReliefPad: ["thermal relief", "thermal relief"],
  WasherPad: ["washer pad", "washer pad"], AntiPad: ["antipad", "antipad"], OtherPad: ["pad", "other pad"],
  Conductor: ["", "conductor"], EtchedComponent: ["", "etched component"], NonConductor: ["", "copper that conducts nothing"],
  CopperBalancing: ["", "copper balancing"], Border: ["", "border"], OtherCopper: ["", "other copper"],
  Profile: ["", "outline"], NonMaterial: ["", "no material"], Material: ["", "material"], Other: ["", "other"],
  ComponentMain: ["place of a component", "place of a component"], ComponentOutline: ["", "outline of a component"],
  ComponentPin: ["pin", "pin"], CutOut: ["", "cutout"], Cavity: ["", "cavity"], Slot: ["", "slot"], Drawing: ["", "drawing"],
};

// Their further fields.
/** @type {Record<string, string>} */
const FIELDS = {
  CuDef: "defined by the copper", SMDef: "defined by the solder mask", PressFit: "press fit", Local: "of a component",
  Global: "of the board", Panel: "of the panel", Tooling: "tooling", BreakOut: "break out", Breakout: "break out",
  Body: "its body", Lead2Lead: "from lead to lead", Footprint: "its footprint", Courtyard: "its courtyard",
};

// What XNC has before the function of a tool: whether and how it is plated.
const PLATINGS = new Set(["Plated", "NonPlated"]);
/** @type {Record<string, string>} */
const SPANS = { PTH: "", NPTH: "", Blind: "blind", Buried: "buried" };

/**
 * @template T
 * @param {Record<string, T>} table
 * @param {string} key
 * @returns {T | undefined}
 */
function own(table, key) {
  return Object.hasOwn(table, key) ? table[key] : undefined;
}

/** @param {readonly Attribute[]} attributes @returns {string[]} the fields of a function, nothing where there is none */
function fieldsOf(attributes) {
  const fields = attributes.find(({ name }) => name === ".AperFunction")?.fields.map((field) => plain(field).trim()) ?? [];
  const [first = "", ...more] = fields;
  return PLATINGS.has(first) ? more : fields;
}

/**
 * The words of a function: `SMD pad, defined by the copper`. What is not in the standard stands as the file has it.
 * @param {readonly Attribute[]} attributes of an aperture, a tool or a region
 * @returns {string} nothing where there is none
 */
export function functionWords(attributes) {
  const words = fieldsOf(attributes).map((field) => own(FUNCTIONS, field)?.[1] ?? own(FIELDS, field) ?? own(SPANS, field) ?? field);
  return words.filter((word) => word).join(", ");
}

/**
 * What an item is called. On copper a dark flash is a pad and a dark stroke a track, as the standard has them, where no function
 * says otherwise; what is not known is called what it is in the file: a flash, a draw, an arc.
 * @param {ToldLayer} layer
 * @param {Item} item
 * @param {readonly Attribute[]} attributes of the item
 * @returns {string}
 */
export function nounOf(layer, item, attributes) {
  const [name] = fieldsOf(layer.ofAperture(item.number)), found = name === undefined ? undefined : own(FUNCTIONS, name);
  const isCopper = layer.group === "copper" && item.isDark;
  if (item.kind === "flash") {
    if (found?.[0]) return found[0];
    if (attributes.some((attribute) => attribute.name === ".P") || (isCopper && name === undefined)) return "pad";
    return layer.group === "mask" && layer.isNegative && item.isDark ? "opening" : "flash";
  }
  if (name === "Profile" || (layer.group === "outline" && name === undefined)) return "outline";
  return isCopper && (name === undefined || name === "Conductor") ? "track" : item.kind;
}
