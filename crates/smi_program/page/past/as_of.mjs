// The picture of an earlier time, of what the entries up to then say.

import { MOST_SILENCE, devices, domains } from "../model.mjs";
import { entriesOf, lastUpTo, recordIn, sinceOf } from "./entries.mjs";
import { silenceEntries } from "./stretches.mjs";

/** @typedef {import("./entries.mjs").Book} Book */
/** @typedef {import("../model.mjs").Picture} Picture */
/** @typedef {{number: number, at: number, isOfTime?: boolean}} Place
 * A time of the past, and the number of the last entry up to then. `isOfTime` is true if the time was chosen, and not
 * an entry. */

/** Returns the state in which an object was shown, or null if it was not seen yet.
 * @param {Book} book @param {string} name @param {number} number */
function shownAt(book, name, number) {
  const entry = lastUpTo(entriesOf(book, "board " + name), number);
  if (!entry) return null;
  const [boot, sequence] = entry.words[2].split(".").map(Number);
  return { state: entry.words[3], boot, sequence, at: sinceOf(entry) };
}

/** Returns when each station was last heard that was silent, by its name. It is said to be silent once it has been so
 * for the time that it may be.
 * @param {Book} book @param {number} number */
function silentAt(book, number) {
  const since = new Map(), names = new Set([...domains.values()].map((d) => d.station));
  names.forEach((station) => {
    const entry = lastUpTo(silenceEntries(book, station), number);
    if (entry && entry.words[0] === "silent") since.set(station, entry.at - MOST_SILENCE - 1);
  });
  return since;
}

/** Returns the picture of an earlier time, in the shape of a live one.
 * @param {Book} book @param {Place} place @returns {Picture} */
export function pictureAt(book, { number, at }) {
  const silent = silentAt(book, number);
  const rows = [...domains.values()].map((d) => {
    const entry = lastUpTo(entriesOf(book, "record " + d.name), number);
    const told = entry ? { ...recordIn(entry), since: sinceOf(entry), heard: silent.get(d.station) ?? at } : null;
    return { name: d.name, shown: shownAt(book, d.name, number), told };
  });
  return { frame: -1, now: at, domains: rows,
    devices: [...devices.values()].map((it) => ({ name: it.name, shown: shownAt(book, it.name, number) })) };
}

/** Returns who had acknowledged an alarm at an earlier time since it began, or "".
 * @param {Book} book @param {Place} place @param {import("../alarms.mjs").Alarm} alarm */
export function knewThen(book, place, alarm) {
  const entry = lastUpTo(entriesOf(book, "acknowledged " + alarm.key), place.number);
  return entry && entry.at >= (alarm.at ?? 0) ? entry.words[3] : "";
}
