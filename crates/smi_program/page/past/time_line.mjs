// The time line: a row for each object, with its states as bands, silences, and marks for what happened.

import { paint } from "../colours.mjs";
import { by, label, make, style } from "../dom.mjs";
import { HOUR, devices, domains } from "../model.mjs";
import { chooseSubject, chosenEnd, knownSpan, placeOf, rowNames, shownSpan, subject, timeWithin } from "./choice.mjs";
import { pastBook } from "./history.mjs";
import { lookAt, shownPlace } from "./looking.mjs";
import { refill } from "./refilling.mjs";
import { sayEntry } from "./saying.mjs";
import { marksOf, silentTimes, statesOf, thinned } from "./stretches.mjs";
import { axisOf, dayTime } from "./times.mjs";

/** @typedef {import("./stretches.mjs").Span} Span */
/** @typedef {import("./stretches.mjs").Stretch} Stretch */
/** @typedef {import("./stretches.mjs").Mark} Mark */

// In how many parts a row can show something of its own, how many marks it has, and how many bands are read out.
const PARTS = 400, MOST_MARKS = 200, MOST_READ_OUT = 8;
// A mark is told with its date if more is shown than this, or of another end than now.
const MOST_UNDATED = 24 * HOUR;

/** Says how far a time is in a span.
 * @param {number} at @param {Span} span */
const share = (at, span) => (100 * (at - span.from) / (span.to - span.from)).toFixed(3) + "%";

/** Puts an element at its time in a row.
 * @param {any} e @param {{from: number, to: number}} it @param {Span} span @param {string} title */
function putAt(e, it, span, title) {
  style(e, "left", share(it.from, span));
  if (it.to > it.from) style(e, "width", share(span.from + it.to - it.from, span));
  e.title = title;
  return e;
}

/** @param {Stretch} it */
const timeWords = (it) => " from " + timeWithin(it.from) + " to " + timeWithin(it.to);
/** @param {Stretch} it */
const stateWords = (it) => (it.value || "not seen") + (it.count > 1 ? " and " + (it.count - 1) + " more" : "") +
  timeWords(it);
/** @param {Mark} it @param {Span} span */
const markWords = (it, span) => (chosenEnd === null && span.to - span.from <= MOST_UNDATED ? dayTime(it.at) :
  timeWithin(it.at)) + " " + sayEntry(pastBook, it.entry);

/** Leaves out marks that nobody could see apart from another one of their kind.
 * @param {Mark[]} marks @param {number} least */
function spaced(marks, least) {
  const lastAt = new Map();
  return marks.filter((it) => {
    if (it.at - (lastAt.get(it.kind) ?? -Infinity) < least) return false;
    lastAt.set(it.kind, it.at);
    return true;
  }).slice(-MOST_MARKS);
}

/** Returns the track of an object.
 * @param {string} name @param {Span} span */
function trackOf(name, span) {
  const track = make("div", "track"), least = (span.to - span.from) / PARTS, known = knownSpan();
  const d = domains.get(name) || domains.get(devices.get(name).domain);
  const states = thinned(statesOf(pastBook, name, known), least);
  track.append(...states.map((it) => {
    const band = putAt(make("i", "band"), it, span, stateWords(it));
    paint(band, it.value);
    return band;
  }), ...thinned(silentTimes(pastBook, d.station, known), least).map((it) =>
    putAt(make("i", "hush"), it, span, "station " + d.station + " silent" + timeWords(it))),
  ...spaced(marksOf(pastBook, name, known), least).map((it) =>
    putAt(make("b", "mark " + it.kind), { from: it.at, to: it.at }, span, markWords(it, span))));
  track.tabIndex = 0;
  track.dataset.key = "track " + name;
  track.setAttribute("role", "img");
  const read = states.slice(-MOST_READ_OUT).map(stateWords);
  label(track, name + ": " + read.join(", "));
  track.addEventListener("click", (/** @type {any} */ click) => {
    const box = track.getBoundingClientRect();
    lookAt(placeOf(Math.round(span.from + (click.clientX - box.left) / box.width * (span.to - span.from))));
  });
  return track;
}

/** Returns a button that shows the past of another object.
 * @param {string} name @param {string} text @param {() => void} redraw */
function leadTo(name, text, redraw) {
  const b = make("button", "row-name", text);
  b.type = "button";
  b.dataset.key = "row " + name;
  b.addEventListener("click", () => { chooseSubject(name); redraw(); });
  return b;
}

/** Draws the time line.
 * @param {() => void} redraw what is done once another object was chosen */
export function drawLine(redraw) {
  const span = shownSpan(), list = make("ol"), axis = make("div", "axis"), d = domains.get(subject);
  const up = d ? d.parent : devices.has(subject) ? devices.get(subject).domain : null;
  axis.setAttribute("aria-hidden", "true");
  axis.append(...axisOf(span).map(({ at, text }) => {
    const tick = make("span", "", text);
    style(tick, "left", share(at, span));
    return tick;
  }));
  label(list, "time line of " + (subject || "all") + (chosenEnd === null ? "" : " until " + timeWithin(chosenEnd)));
  list.append(...rowNames().map((name) => {
    const li = make("li", "row");
    li.append(leadTo(name, name, redraw), trackOf(name, span));
    return li;
  }));
  const upward = subject ? [leadTo(up || "", "up to " + (up || "all"), redraw)] : [];
  refill(by("time-line"), [...upward, list, axis]);
  showCursor();
}

/** Shows where the time is at which the page is. */
export function showCursor() {
  style(by("time-line"), "--at", shownPlace ? share(shownPlace.at, shownSpan()) : "100%");
}
