// The part of the page that shows the past: what is chosen, and the time that the page is at.

import { by, flag, make, mark, set } from "../dom.mjs";
import { afterBuild, devices, domains, extras, tree } from "../model.mjs";
import { chooseHours, chooseSubject, chosenEnd, hours, keptLater, lastPlace, placeOf, shownEntries, shownSpan, subject,
  timeWithin, wantChosen } from "./choice.mjs";
import { lastUpTo } from "./entries.mjs";
import { drawEntries, markEntry } from "./entry_list.mjs";
import { afterAnswer, followHistory, historyFault, isWhole, leaveHistory, newestHead, pastBook } from "./history.mjs";
import { writeSummary } from "./log_book.mjs";
import { afterLook, lookAt, shownPlace } from "./looking.mjs";
import { drawLine, showCursor } from "./time_line.mjs";
import { dayMinute, dayTime } from "./times.mjs";
import { afterEnd, sayEnd } from "./until.mjs";

// Into how many parts the slider divides the time, how often all is drawn again though nothing has come, and how often
// at most while earlier entries come. Drawing takes at most a part of the time, because a week has very many entries.
const STEPS_SHOWN = 1000, REDRAWN = 10000, COMING = 1000, PART_DRAWN = 5;
// How many entries may be not saved yet, and for how long more of them may be.
const MOST_UNSAVED = 1000, LATE_SAVED = 60000;
// What was drawn last, when, and for how long; and since when too many entries are not saved.
/** @type {any} */
let drawnBook = null;
let drawnAt = 0, drawnFor = 0, unsavedSince = 0;

const isOpen = () => !by("past").hidden;

/** Draws all of the past. */
export function drawPast() {
  drawnBook = pastBook;
  drawnAt = performance.now();
  drawLine(drawPast);
  drawEntries();
  writeSummary();
  showPlace();
  if (by("past-of") !== document.activeElement) by("past-of").value = subject;
  drawnFor = performance.now() - drawnAt;
}

/** Shows at which time the page is. */
function showPlace() {
  const span = shownSpan(), slider = by("past-slider"), at = shownPlace ? shownPlace.at : span.to;
  const share = Math.round(STEPS_SHOWN * (at - span.from) / (span.to - span.from));
  slider.value = String(shownPlace ? Math.max(0, Math.min(STEPS_SHOWN - 1, share)) : STEPS_SHOWN);
  const words = shownPlace ? "as of " + timeWithin(at) : chosenEnd === null ? "now" : "the page shows now";
  mark(slider, "aria-valuetext", words);
  set(by("past-shown"), words);
  showCursor();
  markEntry();
}

/** Returns since when entries are not saved, in words, if too many are not and have not been for a while. */
function unsavedWords() {
  // of a time that has ended the answers are old
  const isLate = newestHead && chosenEnd === null && newestHead.saved > 0 &&
    newestHead.count - newestHead.saved > MOST_UNSAVED;
  unsavedSince = isLate ? unsavedSince || performance.now() : 0;
  if (!isLate || performance.now() - unsavedSince < LATE_SAVED) return "";
  const entry = lastUpTo(pastBook.list, newestHead.saved);
  return "not saved since " + (entry ? dayTime(entry.at).slice(0, 5) : "before what is here");
}

/** Says what is there and what is not. */
function sayState() {
  const first = keptLater(), coming = (chosenEnd === null ? "earlier " : "") + "entries are on their way";
  const words = [historyFault || unsavedWords(), !historyFault && !isWhole ? coming : "",
    first ? "kept since " + dayMinute(first) : ""];
  set(by("past-said"), words.filter((it) => it).join(", "));
}

/** Shows another time: what is there of it, and then what it needs more. */
function turnTime() {
  // the entries by which the page shows an earlier time are there no longer
  if (wantChosen() && shownPlace) lookAt(null);
  if (tree) drawPast();
  sayEnd();
  sayState();
}

/** Shows what has come. */
function showAnswer() {
  if (!isOpen()) return;
  wantChosen();
  sayState();
  const passed = performance.now() - drawnAt, isFirst = !drawnBook || !drawnBook.list.length;
  const pause = Math.max(isWhole ? 0 : COMING, PART_DRAWN * drawnFor);
  if (drawnBook === pastBook ? passed > REDRAWN : isFirst || passed > pause) drawPast();
}

/** Opens the past, of an object or of all.
 * @param {string} [name] */
export function openPast(name = "") {
  chooseSubject(name);
  by("past").hidden = false;
  mark(by("past-open"), "aria-pressed", "true");
  by("past-name").focus();
  turnTime();
  followHistory();
}

/** Closes it, and goes back to now. */
export function closePast() {
  if (shownPlace) lookAt(null);
  leaveHistory();
  by("past").hidden = true;
  by("summary").open = false;
  mark(by("past-open"), "aria-pressed", "false");
  by("past-open").focus();
}

/** Opens the past, or closes it. */
export function turnPast() { if (isOpen()) closePast(); else openPast(); }

/** Goes to the entry before or after the one at which the page is. After the last one is the end, which may be now.
 * @param {number} step */
function stepBy(step) {
  const { number, at, isOfTime } = shownPlace || { number: Infinity, at: Infinity, isOfTime: false };
  // a time is after its last entry
  const isBefore = (/** @type {any} */ it) => it.number < number || isOfTime && it.number === number && it.at < at;
  const list = shownEntries(), next = step < 0 ? list.filter(isBefore).pop() : list.find((it) => it.number > number);
  if (next) lookAt({ number: next.number, at: next.at }); else if (step > 0) lookAt(lastPlace());
}

/** Offers the names of a tree. */
function offerNames() {
  by("past-names").replaceChildren(...[...domains.keys(), ...devices.keys(),
    ...tree.operators.map((/** @type {any} */ it) => it.name)].map((name) => {
    const option = make("option");
    option.value = name;
    return option;
  }));
}

by("past-span").value = String(hours);
by("past-span").addEventListener("change", () => { chooseHours(Number(by("past-span").value)); turnTime(); });
by("past-of").addEventListener("input", () => {
  const name = by("past-of").value.trim().toUpperCase();
  const isKnown = !name || domains.has(name) || devices.has(name) ||
    !!tree && tree.operators.some((/** @type {any} */ it) => it.name === name);
  flag(by("past-of"), "strange", !isKnown);
  if (isKnown) { chooseSubject(name); drawPast(); }
});
by("past-search").addEventListener("input", drawEntries);
by("past-slider").addEventListener("input", () => {
  const span = shownSpan(), value = Number(by("past-slider").value);
  const at = Math.round(span.from + (span.to - span.from) * value / STEPS_SHOWN);
  lookAt(value < STEPS_SHOWN ? placeOf(at) : lastPlace());
});
by("past-before").addEventListener("click", () => stepBy(-1));
by("past-after").addEventListener("click", () => stepBy(1));
by("past-open").addEventListener("click", turnPast);
by("past-close").addEventListener("click", closePast);
document.addEventListener("keydown", (key) => {
  const target = /** @type {any} */ (key.target);
  // a dialog takes the key, and a search empties itself first
  const isTaken = document.querySelector("dialog[open]") || target.type === "search" && target.value;
  if (key.key !== "Escape" || isTaken) return;
  if (shownPlace) lookAt(null); else if (isOpen()) closePast();
});
afterEnd.push(() => { if (shownPlace) lookAt(null); turnTime(); });
afterAnswer.push(showAnswer);
afterLook.push(() => { if (isOpen()) showPlace(); });
afterBuild.push(offerNames);
extras.push((d) => {
  const b = make("button", "tool", "its past");
  b.type = "button";
  b.id = "its-past";
  b.addEventListener("click", () => {
    // the keyboard is led out of the details first, and then here
    by("more").addEventListener("close", () => openPast(d.name), { once: true });
    by("more").close();
  });
  return b;
});
