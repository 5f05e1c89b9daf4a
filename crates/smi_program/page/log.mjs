// What this page has seen in the last hour.

import { by, make } from "./dom.mjs";
import { HOUR, domains, liveNow, tree } from "./model.mjs";

const MOST_LOGGED = 2000;
/** @type {{text: string, at: number}[]} */
let log = [];
// Whether something was noted that is not shown yet.
let isLogOld = true;
// What the page had seen before it was loaded again, which the first pictures tell once more.
/** @type {{text: string, at: number}[]} */
let before = [];
const AGAIN = 3000;

/** Notes what was seen at a time of the screen, unless it was noted before the page was loaded again.
 * @param {string} text @param {number} ms */
export function note(text, ms) {
  const at = Date.now() - Math.max(0, liveNow() - ms);
  if (before.some((it) => it.text === text && Math.abs(it.at - at) < AGAIN)) return;
  log.push({ text, at });
  if (log.length > 2 * MOST_LOGGED) log = log.slice(-MOST_LOGGED);
  isLogOld = true;
}

/** Begins a log for a tree, with what this page had seen of it before it was loaded again. */
export function beginLog() {
  before = keptLog();
  log = [...before];
  isLogOld = true;
  setTimeout(() => { before = []; }, AGAIN);
}

/** Returns what this page has kept of the tree, which it does as long as it is open. */
function keptLog() {
  try {
    const old = JSON.parse(sessionStorage.getItem("log") || "{}");
    return old.tree === tree.tree ? old.log : [];
  } catch (faulty) { return []; }
}

addEventListener("pagehide", () => {
  try {
    if (tree) sessionStorage.setItem("log", JSON.stringify({ tree: tree.tree, log: log.slice(-MOST_LOGGED) }));
  } catch (refused) { /* A page that may keep nothing forgets it. */ }
});

/** Notes what has changed of an object.
 * @param {any} old @param {any} d */
export function noteChanges(old, d) {
  const shown = d.shown, told = d.told;
  if (shown && (!old.shown || old.shown.state !== shown.state)) note(d.name + " " + shown.state, shown.at);
  if (!told) return;
  const holder = (/** @type {any} */ t) =>
    t.holder === null ? "free" : t.holder.operator || "domain " + t.holder.domain;
  if (!old.told || holder(old.told) !== holder(told)) note(d.name + " held by " + holder(told), told.since);
  if (old.told && !told.busy && told.outcome && told.last !== old.told.last) {
    note(d.name + " command " + told.last + " ended with " + told.outcome, told.since);
  }
}

/** Notes the stations that are silent now or heard again: a line each, with the first of their domains. */
export function noteSilence() {
  const seen = new Set();
  domains.forEach((d) => {
    if (seen.has(d.station)) return;
    seen.add(d.station);
    const is = d.silence !== null && d.silence >= 0, text = "station " + d.station + ", which keeps " + d.name;
    if (d.wasSilent !== undefined && d.wasSilent !== is) note(text + (is ? ": silent" : ": heard again"), liveNow());
    d.wasSilent = is;
  });
}

/** Shows the log, if it is open. */
export function showLog() {
  const first = Date.now() - HOUR;
  if (!by("hour").open || !isLogOld) return;
  isLogOld = false;
  log = log.filter((entry) => entry.at >= first).slice(-MOST_LOGGED);
  const sorted = [...log].sort((a, b) => b.at - a.at);
  by("log").replaceChildren(...sorted.map((entry) => {
    const li = make("li"), when = new Date(entry.at);
    const time = make("time", "", when.toLocaleTimeString("en-GB"));
    time.dateTime = when.toISOString();
    li.append(time, entry.text);
    return li;
  }));
}

by("hour").addEventListener("toggle", () => { isLogOld = true; showLog(); });
