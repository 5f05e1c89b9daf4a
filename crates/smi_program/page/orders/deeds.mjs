// What may be ordered of a domain: the order, the question before it, and why it would be refused, if it would.

import { domains, holderOf, isPast, tree } from "../model.mjs";
import { asksChild, isManual, isSilent } from "./counted.mjs";
import { hasConsole, who } from "./given.mjs";
import { held, isSoAlready, modeOf } from "./modes.mjs";
import { lacksToken } from "./token.mjs";

/** @typedef {import("../model.mjs").Domain} Domain */
/** @typedef {{name: string, asked: string, line: () => string, why: () => string, waitsFor: () => Domain[],
 *   at: Domain, isCommand?: boolean, isOfMode?: boolean}} Deed
 * `at` is the domain that an order is about, whose keeper answers it, and `waitsFor` are silent domains below. */

/** @param {Domain} d */
const holderName = (d) => { const h = holderOf(d); return !d.told ? "" : !h ? "nobody" : h.operator || h.domain; };
/** @param {Domain} d @param {string} name */
const isHeldBy = (d, name) => holderName(d) === name && d.told !== null;

/** Returns where the one who orders has to order for a domain: the nearest one above it that he holds, through all
 * levels.
 * @param {Domain} d */
export function above(d) {
  for (let at = domains.get(d.parent); at; at = domains.get(holderOf(at) && holderOf(at).domain)) {
    if (isHeldBy(at, who)) return at;
  }
  return null;
}

/** Returns the silent domains that a command at a domain would wait for. One whose mode is not told may be manual, and
 * is among them.
 * @param {Domain} d @returns {Domain[]} */
export function silentBelow(d) {
  return held(d).filter((c) => !isManual(c)).flatMap((c) => isSilent(c) ? [c] : silentBelow(c));
}

/** Returns the silent domains through which an order about a mode has to go, from where it is given down to the parent.
 * @param {Domain} d */
function silentOnWay(d) {
  const top = above(d), silent = [];
  for (let at = domains.get(d.parent); top && at !== top; at = domains.get(at.parent)) {
    if (isSilent(at) && !isManual(at)) silent.push(at);
  }
  return silent;
}

/** Returns why nobody may order anything, if so. */
export function whyNobody() {
  if (isPast) return "the page shows an earlier time: go back to now";
  if (!who) return "choose who orders, at the top of the page";
  if (lacksToken()) return "type the token for orders, at the top of the page";
  return hasConsole ? "" : "there is no connection with the console";
}
/** @param {Domain} d */
function whyNoTake(d) {
  if (!d.told || !holderOf(d)) return "";
  return isHeldBy(d, who) ? who + " holds " + d.name + " already" : d.name + " is held by " + holderName(d);
}
/** @param {Domain} d */
function whyNoDrop(d) {
  if (!isHeldBy(d, who)) return who + " does not hold " + d.name;
  return d.told.busy ? "a command at " + d.name + " is not answered yet" : "";
}
/** @param {Domain} d */
function whyNoCommand(d) {
  if (isHeldBy(d, who)) return "";
  const top = above(d);
  return who + " does not hold " + d.name + (top ? ": order at " + top.name : "");
}
/** @param {Domain} d @param {string} verb */
function whyNoMode(d, verb) {
  const parent = domains.get(d.parent), h = holderOf(d);
  if (!above(d)) return who + " commands nothing above " + d.name;
  const isHeld = h && h.domain === parent.name;
  if (isHeld && isSoAlready(d, verb)) return d.name + " is " + modeOf(d) + " already";
  if (verb === "include") return h && h.operator ? d.name + " is held by " + h.operator : "";
  return isHeld ? "" : d.name + " is not held by " + parent.name;
}

/** @type {Record<string, (d: Domain) => string>} */
const ASKED = { include: (d) => "include " + d.name + " in " + d.parent + "?", exclude: (d) => "exclude " + d.name +
  " from " + d.parent + "?", manual: (d) => "make " + d.name + " manual in " + d.parent + "?",
  ignore: (d) => "ignore " + d.name + " in " + d.parent + "?" };

/** Returns what may be ordered of a domain.
 * @param {Domain} d @returns {Deed[]} */
export function deedsOf(d) {
  /** @type {Deed[]} */
  const deeds = [
    { name: "take", asked: "take " + d.name + "?", line: () => "take " + d.name, why: () => whyNoTake(d), at: d,
      waitsFor: () => [] },
    { name: "drop", asked: "drop " + d.name + "?", line: () => "drop " + d.name, why: () => whyNoDrop(d), at: d,
      waitsFor: () => [] }];
  const accepted = tree.actions.filter((/** @type {string} */ name, /** @type {number} */ at) => d.accepts[at]);
  accepted.forEach((/** @type {string} */ action) => deeds.push({ name: action, asked: action + " at " + d.name + "?",
    line: () => "do " + d.name + " " + action, why: () => whyNoCommand(d), waitsFor: () => silentBelow(d), at: d,
    isCommand: true }));
  if (d.parent) {
    Object.keys(ASKED).forEach((verb) => deeds.push({ name: verb, asked: ASKED[verb](d),
      line: () => verb + " " + above(d).name + " " + d.name, why: () => whyNoMode(d, verb),
      waitsFor: () => silentOnWay(d).concat(asksChild(verb) && isSilent(d) ? [d] : []),
      get at() { return above(d) || domains.get(d.parent); }, isOfMode: true }));
  }
  return deeds;
}
