// The boxes of the domains, made once for a tree, and what each shows of the newest picture.

import { inkOn, paint, personColour } from "./colours.mjs";
import { flag, label, make, set, style } from "./dom.mjs";
import { open } from "./details.mjs";
import { fold, showFold } from "./folding.mjs";
import { age, commander, domains, isAlarm, isUnknown, modeSayers, silenceOf, stateOf } from "./model.mjs";

/** @typedef {import("./model.mjs").Domain} Domain */
/** @typedef {import("./model.mjs").Device} Device */

const CLASSES = ["root", "card", "part", "group"];

/** Says to somebody who does not see it where a domain is in the tree.
 * @param {any} top @param {number} deep @param {Domain[]} beside @param {Domain} d */
function placeInTree(top, deep, beside, d) {
  const place = { role: "treeitem", "aria-level": deep + 1, "aria-setsize": beside.length,
    "aria-posinset": beside.indexOf(d) + 1, tabindex: -1 };
  Object.entries(place).forEach(([key, value]) => top.setAttribute(key, String(value)));
}

/** Returns the box of a domain with those below it.
 * @param {Domain} d @param {number} deep @param {Domain[]} beside the domains that are below the same one
 * @returns {any} */
export function boxOf(d, deep, beside) {
  const box = make("section", CLASSES[Math.min(deep, 3)]), top = make("button", "top"), dots = make("span", "devices");
  top.type = "button";
  top.dataset.domain = d.name;
  placeInTree(top, deep, beside, d);
  box.setAttribute("role", "none");
  const at = { box, top, name: make("span", "name", d.name), state: make("span", "state", ""),
    who: make("span", "who"), mode: make("span", "mode"), note: make("span", "note"), fold: make("span", "fold") };
  d.devices.forEach((device) => { device.dot = make("i"); dots.append(device.dot); });
  dots.setAttribute("aria-hidden", "true");
  at.fold.setAttribute("aria-hidden", "true");
  top.append(...(d.children.length ? [at.fold] : []), at.name, ...(d.devices.length ? [dots] : []),
    ...(deep < 2 ? [at.state, at.who] : [at.who, at.state]), at.mode, at.note);
  top.addEventListener("click", (/** @type {any} */ click) => {
    if (at.fold.contains(click.target)) fold(d); else open(d.name);
  });
  box.append(top);
  d.at = at;
  if (d.children.length) {
    const inside = make("div", deep === 0 ? "kids cards" : "kids");
    inside.setAttribute("role", "none");
    inside.append(...d.children.map((child) => boxOf(child, deep + 1, d.children)));
    box.append(inside);
  }
  // What is above says for how long a station has been silent, if it is the same.
  flag(box, "own", !!d.parent && domains.get(d.parent).station !== d.station);
  flag(box, "small", deep === 0 && d.children.every((child) => child.children.length === 0));
  return box;
}

/** Shows a legend of colours.
 * @param {[string, string][]} items @param {any} place */
export function legendOf(items, place) {
  place.replaceChildren(...items.map(([text, colour]) => {
    const b = make("b"), i = make("i");
    if (colour) i.style.setProperty("--c", colour);
    b.append(i, text);
    return b;
  }));
}

/** Returns what is said of a domain to somebody who does not see it.
 * @param {Domain} d @param {number | null} silence */
function describe(d, silence) {
  const boss = commander(d), words = [d.name, stateOf(d) || "not seen"];
  words.push(boss === null ? "commander not told" : boss === "" ? "free" : "commanded by " + boss);
  if (silence !== null) words.push(silence < 0 ? "not heard yet" : "silent for " + age(silence));
  if (d.told && d.told.busy) words.push("at work");
  if (markedMode(d)) words.push(markedMode(d));
  return words.join(", ");
}

/** Returns the mode of a child if it is one that a box says. Most are included, and their boxes stay calm.
 * @param {Domain} d */
const markedMode = (d) => modeSayers.map((say) => say(d)).find((mode) => mode === "manual" || mode === "ignored") || "";

/** Returns the state in which most domains are, of those that are heard, or "" if none was seen. */
export function usualState() {
  const counts = new Map();
  domains.forEach((d) => { if (d.silence === null) counts.set(stateOf(d), (counts.get(stateOf(d)) || 0) + 1); });
  return [...counts].reduce((most, it) => it[1] > most[1] ? it : most, ["", 0])[0];
}

/** Shows a domain as the newest picture says.
 * @param {Domain} d @param {Map<string, number>} heard @param {number} time @param {string} usual */
export function showDomain(d, heard, time, usual) {
  const at = d.at, state = stateOf(d), boss = commander(d), silence = silenceOf(d, heard, time);
  const byDomain = d.told && d.told.holder && d.told.holder.domain;
  paint(at.state, state);
  set(at.state, state || "NOT SEEN");
  const colour = boss ? personColour(boss) : "";
  // a box that is nobody's would have the colour of the box around it
  style(at.box, "--edge", colour || "var(--line)");
  style(at.who, "--who", colour);
  style(at.who, "--whot", colour ? inkOn(colour) : "");
  // who commands is said where that is not the one who commands what is above
  set(at.who, byDomain ? "" : boss === null ? "" : boss || "free");
  set(at.mode, markedMode(d));
  flag(at.box, "apart", boss !== null && !byDomain && !!d.parent);
  flag(at.box, "silent", silence !== null);
  flag(at.top, "busy", !!(d.told && d.told.busy) && silence === null);
  set(at.note, silence === null ? "" : silence < 0 ? "not heard yet" : "silent " + age(silence));
  label(at.top, describe(d, silence));
  d.silence = silence;
  showFold(d);
  const up = d.parent && domains.get(d.parent);
  const isCalm = silence === null && !d.devices.some(isAlarm);
  flag(at.box, "same", !!up && isCalm && state === stateOf(up));
  flag(at.box, "usual", isCalm && state === usual && !isAlarm(d) && !isUnknown(d));
}

/** Shows a device as the newest picture says.
 * @param {Device} d */
export function showDevice(d) {
  const state = stateOf(d);
  paint(d.dot, state);
  const title = d.name + " " + (state || "not seen");
  if (d.dot.title !== title) d.dot.title = title;
  set(d.dot, isAlarm(d) ? "!" : isUnknown(d) ? "?" : "");
}
