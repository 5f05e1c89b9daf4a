// In which mode each child is, as the console tells it, and as this page has ordered since.

import { domains, holderOf } from "../model.mjs";

/** @typedef {import("../model.mjs").Domain} Domain */

// The mode that each order about a mode makes.
/** @type {Record<string, string>} */
const MODE_BY = { include: "included", exclude: "out", manual: "manual", ignore: "ignored" };
// For how many milliseconds what the console tells may be older than an order that has ended: it is asked every 2,000.
const OLD = 3000;

/** The mode of each child that the console told.
 * @type {Map<string, string>} */
let modes = new Map();
/** The mode that this page made each child last, and until when that counts for more than what the console told.
 * @type {Map<string, [string, number]>} */
const made = new Map();

/** Takes what the console has told: a child and its mode each.
 * @param {string[]} lines */
export function learnModes(lines) {
  modes = new Map(lines.map((line) => { const [child, mode] = line.split(" "); return [child, mode]; }));
}

/** Notes that an order of this page about the mode of a child has ended well.
 * @param {string} verb @param {string} child */
export function noteMode(verb, child) { made.set(child, [MODE_BY[verb], performance.now() + OLD]); }

/** Returns the mode of a child, included, manual, ignored or out: "" if the console does not tell it.
 * @param {Domain} d */
export function modeOf(d) {
  const told = modes.get(d.name), [mode, until] = made.get(d.name) || ["", 0];
  return !told || !domains.has(d.parent) ? "" : performance.now() < until ? mode : told;
}

/** Returns the domains that a domain holds, by their own records or by what the console tells of it: a station that has
 * gone silent may not have told the screen of its last grant.
 * @param {Domain} d */
export const held = (d) => d.children.filter((c) => {
  const holder = holderOf(c), mode = modeOf(c);
  return !!holder && holder.domain === d.name || mode !== "" && mode !== "out";
});

/** Returns true if a child is in the mode already that an order would make.
 * @param {Domain} d @param {string} verb */
export const isSoAlready = (d, verb) => modeOf(d) === MODE_BY[verb];
