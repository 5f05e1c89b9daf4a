// Until when the past is shown: a field for an earlier end, a button for now, and what says that it is not now.

import { by, flag, mark, set } from "../dom.mjs";
import { chooseEnd, chosenEnd, hours } from "./choice.mjs";
import { dayMinute } from "./times.mjs";

// How long the keyboard has to rest before an end is taken: each figure of a date makes another one.
const RESTED = 600;
/** What is done once another end was chosen.
 * @type {(() => void)[]} */
export const afterEnd = [];
/** @type {ReturnType<typeof setTimeout> | undefined} */
let resting;

/** Returns the time that is shown in words.
 * @param {number} end */
const lengthWords = (end) => (hours === 1 ? "hour" : hours < 168 ? hours + " hours" : hours / 24 + " days") +
  " until " + dayMinute(end);

/** Says until when the past is shown. */
export function sayEnd() {
  set(by("past-old"), chosenEnd === null ? "" : "the " + lengthWords(chosenEnd) + ", not until now");
  mark(by("past-until-now"), "aria-pressed", String(chosenEnd === null));
}

/** @param {number | null} end */
function takeEnd(end) {
  if (end === chosenEnd) return;
  chooseEnd(end);
  afterEnd.forEach((more) => more());
}

/** Takes the end that is in the field: now if it is empty. A date that is not complete is none. */
function readEnd() {
  const field = by("past-until"), end = field.value ? new Date(field.value).getTime() : null;
  const isStrange = field.validity.badInput || end !== null && !(end < Date.now());
  if (!isStrange) takeEnd(end);
  flag(field, "strange", isStrange);
  mark(field, "aria-invalid", String(isStrange));
}

by("past-until").addEventListener("input", () => {
  clearTimeout(resting);
  resting = setTimeout(readEnd, RESTED);
});
by("past-until-now").addEventListener("click", () => {
  clearTimeout(resting);
  by("past-until").value = "";
  readEnd();
});
sayEnd();
