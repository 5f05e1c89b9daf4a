// Domains that are folded: what is below them is hidden, and a sign says if somebody has to look there.

import { flag, keep, kept, mark } from "./dom.mjs";
import { domains, isAlarm } from "./model.mjs";

/** @typedef {import("./model.mjs").Domain} Domain */

/** The names of the folded domains.
 * @type {Set<string>} */
const folded = new Set((kept("folded") || "").split(" ").filter((name) => name));

/** Folds a domain, or unfolds it.
 * @param {Domain} d @param {boolean} [is] */
export function fold(d, is = !folded.has(d.name)) {
  if (is) folded.add(d.name); else folded.delete(d.name);
  keep("folded", [...folded].join(" "));
  showFold(d);
}

/** @param {Domain} d */
export const isFolded = (d) => folded.has(d.name);

/** Returns true if a domain is hidden in one above it. What is looked for is not.
 * @param {Domain} d */
export function isHidden(d) {
  if (document.body.classList.contains("finding")) return false;
  let up = domains.get(d.parent);
  while (up && !isFolded(up)) up = domains.get(up.parent);
  return !!up;
}

/** Returns true if something below a domain is in alarm or silent.
 * @param {Domain} d @returns {boolean} */
const isHot = (d) => d.children.some((c) => isAlarm(c) || c.devices.some(isAlarm) || !!c.silence || isHot(c));

/** Shows whether a domain is folded.
 * @param {Domain} d */
export function showFold(d) {
  if (!d.children.length) return;
  const is = isFolded(d);
  flag(d.at.box, "folded", is);
  flag(d.at.fold, "hot", is && isHot(d));
  mark(d.at.top, "aria-expanded", String(!is));
}
