// The history of the screen, as far as the chosen time needs it. If that ends now: the newest entries first, then
// earlier ones until the midnight before it begins, then more of them as they come. If it has ended: those from that
// midnight until its end, and no others. Midnights are those of UTC, at which the screen notes all that it knows.

import { afterBuild, afterRestart } from "../model.mjs";
import { bookOf, joinBooks, readAnswer } from "./entries.mjs";

/** @typedef {import("./entries.mjs").Book} Book */
/** @typedef {import("./entries.mjs").Head} Head */
/** @typedef {{head: Head, list: import("./entries.mjs").Entry[]}} Answer */
/** @typedef {{query: string, take: (answer: Answer) => void}} Question What is asked, and what takes the answer. */

// How many entries an answer looks at, how often it is asked for newer ones, and how long an answer is waited for.
const AT_ONCE = 10000, EACH = 1000, LONGEST = 10000;
const UTC_DAY = 86400000;

/** What is there so far.
 * @type {Book} */
export let pastBook = bookOf([]);
/** The head of the newest answer; null before the first one.
 * @type {Head | null} */
export let newestHead = null;
/** Whether all entries are there that the chosen time needs, but for those that are still to come. */
export let isWhole = false;
/** Why there is nothing more, in words, or "". */
export let historyFault = "";
/** What is done once an answer was taken.
 * @type {(() => void)[]} */
export const afterAnswer = [];

// The midnight from which entries are needed, and the end up to which they are: null if that is now.
let wantedFrom = 0;
/** @type {number | null} */
let wantedEnd = null;
// Up to which number entries are there, and after which: 0 if all earlier ones are there that are kept.
let upto = 0, after = 0;
// What is asked about: another choice, and a screen that begins again, have another book.
let begin = 0;
// Whether anybody looks, and which book is followed: -1 if none is.
let isWanted = false, followed = -1;
// When it was last asked for newer entries.
let askedLast = 0;

/** Forgets all, because other entries are wanted, or the screen has begun again. */
export function forgetHistory() {
  begin += 1;
  pastBook = bookOf([]);
  newestHead = null;
  isWhole = false;
  upto = after = 0;
  historyFault = "";
}

/** Returns true if all earlier entries are there that a time needs which ends now. An older screen notes nothing at
 * midnight, so all that it keeps is needed. */
function reachesBack() {
  const first = pastBook.list[0];
  return newestHead !== null &&
    (after === 0 || newestHead.oldest !== undefined && first !== undefined && first.at < wantedFrom);
}

/** Has the entries of a time loaded, and returns true if it begins with none of those that were there.
 * @param {number} from @param {number | null} end null if it is now */
export function wantTime(from, end) {
  const midnight = Math.max(0, Math.floor(from / UTC_DAY) * UTC_DAY);
  const isOther = end !== wantedEnd || end !== null && midnight < wantedFrom;
  // what was asked for of a time that has ended stays, though less of it is wanted now
  if (isOther || end === null) wantedFrom = midnight;
  wantedEnd = end;
  if (isOther) forgetHistory(); else if (end === null) isWhole = reachesBack();
  // the answer that is waited for is of another book
  if (isOther && isWanted) followHistory();
  return isOther;
}

/** Returns the time of the oldest entry that the screen keeps, or 0 if that is not known. An older screen tells it by
 * all that it keeps. */
export function keptSince() {
  if (newestHead && newestHead.oldest !== undefined) return newestHead.oldest;
  return isWhole && pastBook.list.length ? pastBook.list[0].at : 0;
}

/** Returns the answer to a question: its status if it is none.
 * @param {string} query */
async function fetchEntries(query) {
  const gone = new AbortController(), bell = setTimeout(() => gone.abort(), LONGEST);
  try {
    const answer = await fetch("/api/history" + query, { signal: gone.signal, cache: "no-store" });
    return answer.ok ? readAnswer(await answer.text()) : answer.status;
  } catch (refused) {
    return 0;
  } finally { clearTimeout(bell); }
}

/** Returns true if an answer does not follow what is there: the screen has begun again, or keeps some of the entries
 * between no longer.
 * @param {Head} head */
const isTorn = (head) => newestHead !== null && (head.count < upto || upto > 0 && head.after > upto);

/** Takes the newest entries, or those after them. If some between are kept no longer, it begins again.
 * @param {Answer} answer */
function takeNewer({ head, list }) {
  const isFirst = newestHead === null;
  if (isTorn(head)) { forgetHistory(); return; }
  if (isFirst) after = head.after;
  newestHead = head;
  upto = Math.min(head.upto, head.count);
  if (list.length || isFirst) pastBook = joinBooks(pastBook, bookOf(list));
  isWhole = reachesBack();
}

/** Takes earlier entries, which were asked for after a number.
 * @param {Answer} answer @param {number} asked */
function takeEarlier({ head, list }, asked) {
  pastBook = joinBooks(bookOf(list.filter((it) => it.number <= after)), pastBook);
  after = head.after > asked ? 0 : asked;
  isWhole = reachesBack();
}

/** Takes entries of a time that has ended, the oldest first.
 * @param {Answer} answer @param {number} end */
function takeUntil({ head, list }, end) {
  const isFirst = newestHead === null, looked = Math.min(head.upto, head.count);
  if (isTorn(head)) { forgetHistory(); return; }
  newestHead = head;
  // an older screen has answered with its newest entries, so that all are asked for that it keeps
  if (isFirst && head.oldest === undefined) return;
  const isBeyond = list.length < looked - head.after || list.some((it) => it.at > end);
  upto = looked;
  pastBook = joinBooks(pastBook, bookOf(list.filter((it) => it.at <= end)));
  isWhole = isBeyond || upto >= head.count;
}

/** Returns what is to be asked next of a time that ends now.
 * @returns {Question} */
function nextUntilNow() {
  const isNewer = newestHead === null || isWhole || askedLast + EACH < performance.now();
  const from = Math.max(0, after - AT_ONCE);
  if (!isNewer) return { query: "?after=" + from, take: (answer) => takeEarlier(answer, from) };
  return { query: newestHead === null ? "" : "?after=" + upto, take: (answer) => {
    askedLast = performance.now();
    takeNewer(answer);
  } };
}

/** Returns what is to be asked next of a time that has ended, or null if nothing is.
 * @param {number} end @returns {Question | null} */
function nextUntil(end) {
  if (isWhole) return null;
  const to = "&to=" + Math.max(0, Math.floor(end / 1000)), first = "?from=" + wantedFrom / 1000;
  return { query: (newestHead === null ? first : "?after=" + upto) + to, take: (answer) => takeUntil(answer, end) };
}

/** Asks once, and returns for how long it then may wait. */
async function askOnce() {
  const mine = begin, next = wantedEnd === null ? nextUntilNow() : nextUntil(wantedEnd);
  if (!next) return EACH;
  const answer = await fetchEntries(next.query);
  if (mine !== begin) return 0;
  historyFault = answer === 404 ? "this screen keeps no history" :
    typeof answer === "number" ? "the screen does not answer" : "";
  // an older screen is asked again once somebody opens the past again
  if (answer === 404) isWanted = false;
  if (typeof answer === "number") return EACH;
  next.take(answer);
  return isWhole && newestHead !== null && (wantedEnd !== null || upto >= newestHead.count) ? EACH : 0;
}

/** Follows the history as long as somebody looks at it. Each book is followed by one loop. */
export async function followHistory() {
  isWanted = true;
  if (followed === begin) return;
  const mine = begin;
  followed = mine;
  try {
    while (isWanted && mine === begin) {
      const pause = await askOnce();
      if (mine !== begin) break;
      afterAnswer.forEach((more) => more());
      await new Promise((go) => { setTimeout(go, pause); });
    }
  } finally { if (followed === mine) followed = -1; }
  if (isWanted) followHistory();
}

/** Asks no more. */
export function leaveHistory() { isWanted = false; }

afterBuild.push(forgetHistory);
afterRestart.push(forgetHistory);
