// Of which time and of what the past is shown.

import { keep, kept } from "../dom.mjs";
import { HOUR, devices, domains } from "../model.mjs";
import { isWhole, keptSince, pastBook, wantTime } from "./history.mjs";
import { countFront, entriesOf, isAbout, isNews } from "./entries.mjs";
import { within } from "./stretches.mjs";
import { timeBeside } from "./times.mjs";

/** @typedef {import("./entries.mjs").Entry} Entry */
/** @typedef {import("./as_of.mjs").Place} Place */
/** @typedef {import("./stretches.mjs").Span} Span */
/** @typedef {import("../model.mjs").Domain} Domain */

// How many rows a time line has at most.
const MOST_ROWS = 40;

/** How many hours are shown. */
export let hours = [1, 24, 168].find((it) => kept("past-hours") === String(it)) ?? 8;
/** The end of the time that somebody has chosen, or null if that is now.
 * @type {number | null} */
export let chosenEnd = null;
/** What is shown: a domain with all below it, a device, an operator, or all if it is "". */
export let subject = "";
// The end of the time that is shown while an earlier time is looked at, though it was now.
/** @type {number | null} */
let stayingEnd = null;

/** Returns the time that was chosen, whatever is kept of it.
 * @returns {Span} */
export function chosenSpan() {
  const list = pastBook.list, last = list.length ? list[list.length - 1].at : 0;
  // the clock of the screen may be ahead of this one
  const to = chosenEnd ?? stayingEnd ?? Math.max(Date.now(), last + 1);
  return { from: to - hours * HOUR, to };
}

/** Has the entries loaded that the chosen time needs, and returns true if none of those are there yet. */
export const wantChosen = () => wantTime(chosenSpan().from, chosenEnd);

/** @param {number} next */
export function chooseHours(next) {
  hours = next;
  keep("past-hours", String(next));
}
/** @param {number | null} next null if it is now */
export function chooseEnd(next) { chosenEnd = next; }
/** @param {string} name */
export function chooseSubject(name) { subject = name; }

/** Keeps the end of the time that is shown, or lets it be now again. It is kept while an earlier time is looked at.
 * @param {boolean} is */
export function keepEnd(is) { stayingEnd = is ? stayingEnd ?? chosenSpan().to : null; }

/** Returns since when entries are kept, if the chosen time begins earlier, or else 0. */
export function keptLater() {
  const first = keptSince();
  return first > chosenSpan().from ? first : 0;
}

/** Returns the time that is shown. It begins with the first entry that is kept, if the chosen time begins earlier.
 * @returns {Span} */
export function shownSpan() {
  const { from, to } = chosenSpan(), first = keptLater();
  return { from: first && first < to ? first : from, to };
}

/** Returns the part of the time that is shown of which it is known what was: entries of a time that has ended come the
 * oldest first.
 * @returns {Span} */
export function knownSpan() {
  const span = shownSpan(), list = pastBook.list;
  if (chosenEnd === null || isWhole) return span;
  return { from: span.from, to: Math.max(span.from, list.length ? list[list.length - 1].at : 0) };
}

/** Returns a time in words. Its date is left out if it is of the same day as the end that is now, and of no other end
 * unless that is of today.
 * @param {number} at */
export const timeWithin = (at) => timeBeside(at, chosenEnd === null ? chosenSpan().to : Date.now());

/** Returns the names of a domain, of all below it and of their devices.
 * @param {Domain} d @returns {string[]} */
const namesBelow = (d) => [d.name, ...d.devices.map((it) => it.name), ...d.children.flatMap(namesBelow)];

/** Returns the names that entries have to name, or null if all are wanted. */
export function wantedNames() {
  if (!subject) return null;
  const d = domains.get(subject);
  return new Set(d ? namesBelow(d) : [subject]);
}

/** Returns the news of the time and the subject, the oldest first. */
export function shownEntries() {
  const names = wantedNames();
  return within(pastBook.list, shownSpan()).filter((it) => isNews(pastBook, it) && isAbout(pastBook, it, names));
}

/** Returns the objects that have a row: the subject, what is directly below it, and its own devices. An operator has
 * the domains that he held, and all are the roots and what is directly below them.
 * @returns {string[]} */
export function rowNames() {
  const d = domains.get(subject), all = [...domains.values()];
  const isHeld = (/** @type {Domain} */ it) =>
    entriesOf(pastBook, "record " + it.name).some((entry) => entry.words[3] === subject);
  const rows = d ? [d, ...d.children, ...d.devices] : devices.has(subject) ? [devices.get(subject)] :
    subject ? all.filter(isHeld) : all.filter((it) => !it.parent).flatMap((it) => [it, ...it.children]);
  return rows.slice(0, MOST_ROWS).map((it) => it.name);
}

/** Returns the place of a time: that of the last entry up to then.
 * @param {number} at @returns {Place} */
export function placeOf(at) {
  const entry = pastBook.list[countFront(pastBook.list, (it) => it.at <= at) - 1];
  return { number: entry ? entry.number : 0, at, isOfTime: true };
}

/** Returns the place at the right edge of what is shown: null if that is now.
 * @returns {Place | null} */
export const lastPlace = () => chosenEnd === null ? null : placeOf(chosenEnd);
