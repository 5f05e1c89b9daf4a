// Alarms that somebody has shelved on this page: they are neither listed nor counted nor heard until a time.

import { keep, kept } from "./dom.mjs";

/** The time until which each is shelved, by its key.
 * @type {Map<string, number>} */
const shelf = new Map();

/** Puts an alarm on the shelf for some minutes.
 * @param {string} key @param {number} minutes */
export function shelve(key, minutes) {
  shelf.set(key, Date.now() + 60000 * minutes);
  save();
}

/** Takes an alarm off the shelf.
 * @param {string} key */
export function unshelve(key) {
  shelf.delete(key);
  save();
}

function save() { keep("shelf", JSON.stringify([...shelf])); }

/** Returns the alarms that are shelved now, each with the time until which. */
export function shelved() {
  shelf.forEach((until, key) => { if (until <= Date.now()) unshelve(key); });
  return [...shelf];
}

/** @param {string} key */
export const isShelved = (key) => shelf.has(key) && shelf.get(key) > Date.now();

try {
  JSON.parse(kept("shelf") || "[]").forEach((/** @type {[string, number]} */ [key, until]) => shelf.set(key, until));
} catch (faulty) { /* What is no shelf is forgotten. */ }
