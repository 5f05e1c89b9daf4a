// The entries of the time and the subject in plain words, the newest first.

import { by, flag, make, set } from "../dom.mjs";
import { shownEntries, timeWithin } from "./choice.mjs";
import { isWhole, pastBook } from "./history.mjs";
import { lookAt, shownPlace } from "./looking.mjs";
import { refill } from "./refilling.mjs";
import { sayEntry } from "./saying.mjs";

/** @typedef {import("./entries.mjs").Entry} Entry */

const MOST_ENTRIES = 500;
// Whether an entry was marked.
let wasMarked = false;
/** What was said of entries.
 * @type {WeakMap<Entry, string>} */
let said = new WeakMap();
// The oldest entry that was there then: earlier ones may say more of those after them.
/** @type {Entry | undefined} */
let saidFrom;

/** @param {Entry} entry */
function wordsFor(entry) {
  if (saidFrom !== pastBook.list[0]) said = new WeakMap();
  saidFrom = pastBook.list[0];
  const old = said.get(entry);
  if (old !== undefined) return old;
  const text = sayEntry(pastBook, entry);
  if (entry.words[0] !== "given") said.set(entry, text);
  return text;
}

/** Returns the entries that have all words that are looked for.
 * @param {Entry[]} list */
function searched(list) {
  const words = by("past-search").value.trim().toLowerCase().split(/\s+/).filter((/** @type {string} */ it) => it);
  if (!words.length) return list;
  return list.filter((it) => {
    const text = wordsFor(it).toLowerCase();
    return words.every((/** @type {string} */ word) => text.includes(word));
  });
}

/** Draws the list. */
export function drawEntries() {
  const list = searched(shownEntries()), more = list.length - MOST_ENTRIES;
  refill(by("past-list"), list.slice(-MOST_ENTRIES).reverse().map((it) => {
    const li = make("li"), lead = make("button"), time = make("time", "", timeWithin(it.at));
    time.dateTime = new Date(it.at).toISOString();
    lead.type = "button";
    lead.dataset.key = String(it.number);
    lead.append(time, " ", make("span", "", wordsFor(it)));
    lead.addEventListener("click", () => lookAt({ number: it.number, at: it.at }));
    li.append(lead);
    return li;
  }));
  set(by("past-more"), more > 0 ? more + " more" : list.length || !isWhole ? "" : "no entries");
  markEntry();
}

/** Marks the last entry up to the time that the page shows, and brings it into view; the newest one, if that is now. */
export function markEntry() {
  const number = shownPlace && shownPlace.number, list = by("past-list");
  if (wasMarked && number === null) list.scrollTop = 0;
  wasMarked = number !== null;
  const buttons = [...list.querySelectorAll("button")];
  // what the screen notes at midnight is not listed
  const here = number === null ? undefined : buttons.find((b) => Number(b.dataset.key) <= number);
  buttons.forEach((b) => {
    const isHere = b === here;
    flag(b, "here", isHere);
    if (!isHere) return;
    const off = b.getBoundingClientRect().top - list.getBoundingClientRect().top;
    if (off < 0 || off + b.offsetHeight > list.clientHeight) list.scrollTop += off - list.clientHeight / 2;
  });
}
