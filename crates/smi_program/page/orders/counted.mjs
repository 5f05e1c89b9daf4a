// Which children are manual for certain: what the console tells, and of a child of which it tells nothing, what this
// page ordered, and nobody else since.
//
// A domain's record counts the commands that have run there. `d.counted` is how many they are if none but this page has
// ordered there since it was begun, how many of these orders are open, and which children they have made manual. More
// of them, or another epoch, say that somebody else has ordered too, who may have included such a child again: then it
// begins again.

import { domains } from "../model.mjs";
import { modeOf } from "./modes.mjs";

/** @typedef {import("../model.mjs").Domain} Domain */
/** @typedef {{epoch: number, last: number, open: number, manual: Set<string>}} Count */

const MODES = ["include", "exclude", "manual", "ignore"];
/** @param {string} verb */
export const isOfMode = (verb) => MODES.includes(verb);
/** Returns true if a mode has to be answered by the child too.
 * @param {string} verb */
export const asksChild = (verb) => verb === "include" || verb === "exclude";
/** @param {string} name */
export const parentOf = (name) => domains.get(domains.get(name).parent);
/** @param {Domain} d */
export const isSilent = (d) => d.silence !== null && d.silence !== undefined;

/** @param {Domain} d @returns {Count} */
function countedAt(d) {
  const { epoch, last } = d.told, old = d.counted;
  return old && old.epoch === epoch && last <= old.last ? old : { epoch, last, open: 0, manual: new Set() };
}

/** Returns true if a child is manual for certain.
 * @param {Domain} d */
export function isManual(d) {
  const mode = modeOf(d);
  if (mode) return mode === "manual";
  const parent = domains.get(d.parent), old = parent.told && parent.counted;
  return !!old && !old.open && !isSilent(parent) && countedAt(parent) === old && old.manual.has(d.name);
}

/** Returns the domains at which an order runs if it ends well: where it is given, and of a mode those down to the
 * parent. How far an action goes is not known: below that it counts as somebody else's.
 * @param {string[]} words */
function wayOf([verb, name, target]) {
  const way = isOfMode(verb) || verb === "do" ? [domains.get(name)] : [];
  for (let d = isOfMode(verb) ? parentOf(target) : null; d && d !== way[0]; d = domains.get(d.parent)) way.push(d);
  return way.filter((d) => d.told);
}

/** Counts an order that is about to be given, and returns each domain on its way with its count.
 * @param {string[]} words @returns {[Domain, Count][]} */
export function countedFor(words) {
  return wayOf(words).map((d) => {
    const count = d.counted = countedAt(d);
    count.last += 1;
    count.open += 1;
    if (isOfMode(words[0])) count.manual.delete(words[2]);
    return [d, count];
  });
}

/** Counts what is known once it has ended. With a code above 9 or with none it may not have run, and with any but 0 not
 * below the domain where it was given. 3 says that the child was manual already.
 * @param {string[]} words @param {[Domain, Count][]} counts @param {number | null} code */
export function endCounted([verb, name, target], counts, code) {
  counts.forEach(([d, count]) => {
    count.open -= 1;
    const hasRun = code !== null && (d.name === name ? code <= 9 : code === 0);
    if (!hasRun && d.counted === count) d.counted = null;
    if (verb === "manual" && d === parentOf(target) && (code === 0 || code === 3)) count.manual.add(target);
  });
}
