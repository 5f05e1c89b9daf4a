// The summary of a time, as a text for a log book.

import { devices, domains, kindOf, tree } from "../model.mjs";
import { beforeIt, entriesOf, givenOf, isAbout, isNews, newsOf } from "./entries.mjs";
import { endIn, orderIn } from "./saying.mjs";
import { holdersOf, silentTimes, statesOf, within } from "./stretches.mjs";
import { dayOf, dayTime, lengthOf, timeBeside } from "./times.mjs";

/** @typedef {import("./entries.mjs").Entry} Entry */
/** @typedef {import("./entries.mjs").Book} Book */
/** @typedef {import("./stretches.mjs").Span} Span */
/** @typedef {import("./stretches.mjs").Stretch} Stretch */

/** Returns a stretch as its two times. One that began before the span or lasts longer has no time there.
 * @param {Stretch} it @param {Span} span */
const timesOf = (it, span) => (it.from === span.from ? "the start" : timeBeside(it.from, span.to)) + " to " +
  (it.to === span.to ? "the end" : timeBeside(it.to, span.to));

/** @param {Iterable<{name: string}>} list @param {Set<string> | null} names @returns {string[]} */
const chosen = (list, names) => [...list].map((it) => it.name).filter((name) => names === null || names.has(name));

/** Returns who held each domain and when. A domain that was held once, by the one above it, is counted alone: in most
 * shifts that is nearly all of them.
 * @param {Book} book @param {Span} span @param {Set<string> | null} names */
function holdingLines(book, span, names) {
  let plain = 0;
  const lines = chosen(domains.values(), names).flatMap((name) => {
    const list = holdersOf(book, name, span).filter((it) => it.value && it.value !== "free");
    const isPlain = list.length === 1 && list[0].value === "domain " + domains.get(name).parent;
    plain += isPlain ? 1 : 0;
    return list.length && !isPlain ? [name, ...list.map((it) => "  " + timesOf(it, span) + "  " + it.value)] : [];
  });
  return plain ? [...lines, "held once, by the domain above: " + plain] : lines;
}

/** Returns the orders of each operator that were given in the span, and how each ended, if it has.
 * @param {Book} book @param {Span} span @param {Set<string> | null} names */
function orderLines(book, span, names) {
  const ordered = new Map();
  within(entriesOf(book, "given"), span).filter((it) => isAbout(book, it, names)).forEach((it) => {
    const [operator, order] = orderIn(it);
    const end = entriesOf(book, "order " + it.words[1])
      .find((other) => other.words[0] === "ended" && givenOf(book, other) === it);
    if (!operator) return;
    const line = "  " + timeBeside(it.at, span.to) + "  " + order + ": " + (end ? endIn(end) : "has not ended");
    ordered.set(operator, [...(ordered.get(operator) || []), line]);
  });
  return [...ordered].flatMap(([operator, lines]) => [operator, ...lines]);
}

/** @param {Book} book @param {Span} span @param {Set<string> | null} names */
function faultLines(book, span, names) {
  return chosen(domains.values(), names).flatMap((name) =>
    within(entriesOf(book, "record " + name), span).filter((it) => isNews(book, it)).flatMap((it) => {
      const news = newsOf(it, beforeIt(book, it));
      return news.hasCommand && !news.busy && news.outcome ? [{ it, news, name }] : [];
    })).sort((a, b) => a.it.number - b.it.number).map(({ it, news, name }) =>
    "  " + timeBeside(it.at, span.to) + "  command " + news.last + " of " + name + " ended with " + news.outcome);
}

/** Returns the stretches in which an object was in alarm.
 * @param {Book} book @param {Span} span @param {string} name */
const hotTimes = (book, span, name) => statesOf(book, name, span).filter((it) => kindOf(it.value) === "alarm");

/** Returns the stretches in which an object was in alarm, without those in which something in a domain or right below
 * it says why.
 * @param {Book} book @param {Span} span @param {string} name */
function ownAlarms(book, span, name) {
  const d = domains.get(name), hot = hotTimes(book, span, name);
  if (!d || !hot.length) return hot;
  const causes = [...d.devices, ...d.children].flatMap((it) => hotTimes(book, span, it.name));
  return hot.filter((it) => !causes.some((cause) => cause.from < it.to && it.from < cause.to));
}

/** @param {Book} book @param {Span} span @param {Set<string> | null} names */
function alarmLines(book, span, names) {
  return chosen([...domains.values(), ...devices.values()], names).flatMap((name) => {
    const of = new Map();
    ownAlarms(book, span, name).forEach((it) => of.set(it.value, [...(of.get(it.value) || []), it.to - it.from]));
    return [...of].map(([state, times]) => "  " + name + " " + state + ": " +
      (times.length === 1 ? "once" : times.length + " times") + ", " +
      lengthOf(times.reduce((/** @type {number} */ sum, /** @type {number} */ it) => sum + it, 0)) + " in all");
  });
}

/** @param {Book} book @param {Span} span @param {Set<string> | null} names */
function silenceLines(book, span, names) {
  const stations = new Set([...domains.values()].filter((d) => names === null || names.has(d.name))
    .map((d) => d.station));
  return [...stations].flatMap((station) => silentTimes(book, station, span)
    .map((it) => "  " + station + "  " + timesOf(it, span) + "  " + lengthOf(it.to - it.from)));
}

/** Returns the summary of a span, about these names, or about all if they are null.
 * @param {Book} book @param {Span} span @param {Set<string> | null} names @param {string} what @returns {string} */
export function summaryOf(book, span, names, what) {
  const head = "tree " + tree.tree + ", " + (what || "all") + ", " + dayOf(span.from) + " " + dayTime(span.from) +
    " to " + dayOf(span.to) + " " + dayTime(span.to) + ", local time";
  /** @type {[string, (book: Book, span: Span, names: Set<string> | null) => string[]][]} */
  const parts = [["Who held what", holdingLines], ["Orders of this screen", orderLines],
    ["Commands that ended with a code other than 0", faultLines], ["Alarms", alarmLines],
    ["Silent stations", silenceLines]];
  return [head, ...parts.flatMap(([title, linesOf]) => {
    const lines = linesOf(book, span, names);
    return ["", title, ...(lines.length ? lines : ["  none"])];
  })].join("\n") + "\n";
}
