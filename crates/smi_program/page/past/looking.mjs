// The page as of an earlier time, and the banner that says so.

import { knowers } from "../alarm_list.mjs";
import { by, flag, set } from "../dom.mjs";
import { afterBuild, afterShow, isPast, kindOf, newest } from "../model.mjs";
import { showEarlier } from "../showing.mjs";
import { showTime } from "../signs.mjs";
import { knewThen, pictureAt } from "./as_of.mjs";
import { keepEnd, placeOf } from "./choice.mjs";
import { afterAnswer, pastBook } from "./history.mjs";
import { dayTime, timeBeside } from "./times.mjs";

/** @typedef {import("./as_of.mjs").Place} Place */

// How many of those that are in alarm now the banner names.
const MOST_NAMED = 3;
/** The time that the page shows, or null if that is now.
 * @type {Place | null} */
export let shownPlace = null;
/** What is done once another time is shown.
 * @type {(() => void)[]} */
export const afterLook = [];
// The oldest entry that is there: earlier ones may say more of the time that is shown.
/** @type {any} */
let oldestThere = null;

/** Shows the page as of an earlier time, or as it is now if it is null.
 * @param {Place | null} to */
export function lookAt(to) {
  shownPlace = to;
  keepEnd(to !== null);
  showEarlier(to && pictureAt(pastBook, to));
  flag(document.body, "as-of", to !== null);
  set(by("as-of-words"), to ? "AS OF " + timeBeside(to.at, Date.now()) + ", not now" : "");
  showTime(to ? "as of " + dayTime(to.at) : "");
  afterLook.forEach((more) => more());
}

/** Returns what is in alarm now, in words: nobody may overlook it because of the past. */
function alarmNow() {
  const isTripped = (/** @type {any} */ it) => it.shown && kindOf(it.shown.state) === "alarm";
  const hot = newest ? newest.devices.filter(isTripped) : [];
  const names = hot.slice(0, MOST_NAMED).map((/** @type {any} */ it) => it.name).join(", ");
  return hot.length ? "now in alarm: " + names + (hot.length > MOST_NAMED ? " and " + (hot.length - MOST_NAMED) +
    " more" : "") : "";
}

by("back-to-now").addEventListener("click", () => lookAt(null));
knowers.push((it) => shownPlace ? knewThen(pastBook, shownPlace, it) : "");
afterBuild.push(() => { if (shownPlace) lookAt(null); });
afterShow.push(() => { if (isPast) set(by("as-of-now"), alarmNow()); });
afterAnswer.push(() => {
  // which entry is the last one up to a time is known once it is there
  const next = shownPlace && shownPlace.isOfTime ? placeOf(shownPlace.at) : shownPlace;
  const isMore = !!next && !!shownPlace && (next.number !== shownPlace.number || oldestThere !== pastBook.list[0]);
  shownPlace = next;
  if (next && isMore) showEarlier(pictureAt(pastBook, next));
  oldestThere = pastBook.list[0];
});
