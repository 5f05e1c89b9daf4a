// Stretches of time in which something was the same, and what happened at one moment. All times are UTC in ms.

import { domains, kindOf } from "../model.mjs";
import { countFront, entriesOf, isNews, newsOf } from "./entries.mjs";
import { holderWords } from "./saying.mjs";

/** @typedef {import("./entries.mjs").Entry} Entry */
/** @typedef {import("./entries.mjs").Book} Book */
/** @typedef {{value: string, from: number, to: number, count: number}} Stretch
 * `value` is "" before the first entry, and `count` of how many stretches it is made. */
/** @typedef {{from: number, to: number}} Span */
/** @typedef {{kind: string, at: number, entry: Entry}} Mark `kind` is run, grant, fault, trip or order. */

/** Returns the stretches of a value within a span.
 * @param {Entry[]} list @param {(it: Entry) => string} valueOf @param {Span} span @returns {Stretch[]} */
export function stretchesIn(list, valueOf, { from, to }) {
  const first = countFront(list, (it) => it.at <= from), begin = list[first - 1];
  const made = [{ value: begin ? valueOf(begin) : "", from, to, count: 1 }];
  for (const it of list.slice(first, countFront(list, (other) => other.at < to))) {
    const last = made[made.length - 1], value = valueOf(it);
    if (value !== last.value) {
      last.to = it.at;
      made.push({ value, from: it.at, to, count: 1 });
    }
  }
  return made.filter((it) => it.to > it.from);
}

/** Returns the stretches of the states of a domain or a device.
 * @param {Book} book @param {string} name @param {Span} span */
export const statesOf = (book, name, span) =>
  stretchesIn(entriesOf(book, "board " + name), (it) => it.words[3], span);

/** Returns the stretches of who held a domain.
 * @param {Book} book @param {string} name @param {Span} span */
export const holdersOf = (book, name, span) => stretchesIn(entriesOf(book, "record " + name), holderWords, span);

/** @param {Entry} it */
const isSilence = (it) => it.words[0] === "silent";

/** Returns the entries with which a station fell silent or was heard again, by any of its domains. A screen that was
 * started while a station was silent tells no `heard` of it, but its records.
 * @param {Book} book @param {string} station */
export function silenceEntries(book, station) {
  const names = [...domains.values()].filter((d) => d.station === station).map((d) => d.name);
  return names.flatMap((name) => entriesOf(book, "sign " + name)
    .filter((it, at, list) => isSilence(it) !== (at > 0 && isSilence(list[at - 1]))))
    .sort((a, b) => a.number - b.number);
}

/** Returns when a station was silent.
 * @param {Book} book @param {string} station @param {Span} span */
export const silentTimes = (book, station, span) =>
  stretchesIn(silenceEntries(book, station), (it) => isSilence(it) ? "silent" : "heard", span)
    .filter((it) => it.value === "silent");

/** Returns which of two states a stretch of both shows: the one in alarm, or else that of the longer one.
 * @param {Stretch} one @param {Stretch} other */
function worse(one, other) {
  const isHot = (/** @type {Stretch} */ it) => kindOf(it.value) === "alarm";
  if (isHot(one) !== isHot(other)) return isHot(one) ? one.value : other.value;
  return one.to - one.from >= other.to - other.from ? one.value : other.value;
}

/** Makes one of stretches that are next to each other and shorter than a length: nobody could see them apart.
 * @param {Stretch[]} list @param {number} least @returns {Stretch[]} */
export function thinned(list, least) {
  /** @type {Stretch[]} */
  const made = [];
  list.forEach((it) => {
    const last = made[made.length - 1], isShort = it.to - it.from < least;
    if (!last || !isShort || last.to - last.from >= least) { made.push({ ...it }); return; }
    last.value = worse(last, it);
    last.to = it.to;
    last.count += it.count;
  });
  return made;
}

/** Returns the entries of a list within a span.
 * @param {Entry[]} list @param {Span} span */
export const within = (list, { from, to }) =>
  list.slice(countFront(list, (it) => it.at < from), countFront(list, (it) => it.at <= to));

/** Hands over the news of a key within a span, each with the entry before it.
 * @param {Book} book @param {string} key @param {Span} span @param {(it: Entry, before?: Entry) => void} each */
function eachNews(book, key, { from, to }, each) {
  const list = entriesOf(book, key), end = countFront(list, (it) => it.at <= to);
  for (let place = countFront(list, (it) => it.at < from); place < end; place += 1) {
    if (isNews(book, list[place])) each(list[place], list[place - 1]);
  }
}

/** Returns what happened to an object: commands that ended, another holder, an alarm, and orders of this screen.
 * Commands that ended with 0 are the first, so that anything else is drawn over them and outlasts them.
 * @param {Book} book @param {string} name @param {Span} span @returns {Mark[]} */
export function marksOf(book, name, span) {
  /** @type {Mark[]} */
  const runs = [], marks = [];
  const add = (/** @type {string} */ kind, /** @type {Entry} */ it) =>
    (kind === "run" ? runs : marks).push({ kind, at: it.at, entry: it });
  eachNews(book, "record " + name, span, (it, before) => {
    const news = newsOf(it, before);
    if (before && news.hasHolder) add("grant", it);
    if (before && news.hasCommand && !news.busy) add(news.outcome ? "fault" : "run", it);
  });
  eachNews(book, "board " + name, span, (it, before) => {
    const wasHot = !!before && kindOf(before.words[3]) === "alarm";
    if (kindOf(it.words[3]) === "alarm" && !wasHot) add("trip", it);
  });
  within(entriesOf(book, "given"), span).forEach((it) => { if (it.words.slice(3).includes(name)) add("order", it); });
  return [...runs, ...marks];
}
