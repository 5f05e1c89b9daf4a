// The colours of states and of people.

import { flag, style } from "./dom.mjs";
import { ALARM, styleOf, tree } from "./model.mjs";

// Any two of these can be told apart, also by who sees no red or no green (tests/colours_test.py computes how well).
/** @type {Record<string, string>} */
const KNOWN = { OFF: "#5a5f6d", UNKNOWN: "#ddccdf", STANDBY: "#4faff3", RAMPING: "#f2c841", READY: "#1f6fd6",
  RUNNING: "#0ba860", ERROR: "#bb1c1c" };
// States of other names have the colour of what their names say, the first that fits, or else one of their own.
/** @type {[RegExp, string][]} */
const NAMED = [[ALARM, KNOWN.ERROR], [/UNKNOWN|UNDEF|DEAD|LOST/, KNOWN.UNKNOWN],
  [/^NOT_|_NOT_|OFF|CLOSED|DISABLED/, KNOWN.OFF],
  [/RAMP|SWITCHING|STARTING|STOPPING|CONFIGURING|MOVING|WAIT|BUSY/, KNOWN.RAMPING],
  [/STANDBY|IDLE|INIT/, KNOWN.STANDBY],
  [/RUN|TAKING|PHYSICS/, KNOWN.RUNNING], [/READY|^ON$|_ON$|CONFIGURED/, KNOWN.READY]];
// The colour of each kind that a style file knows.
/** @type {Record<string, string>} */
const KINDS = { ok: KNOWN.RUNNING, busy: KNOWN.RAMPING, off: KNOWN.OFF, alarm: KNOWN.ERROR, unknown: KNOWN.UNKNOWN };
const SPARE = ["#6b8e23", "#008b8b", "#b565a7", "#a0522d", "#4682b4", "#556b2f", "#5f6fd0"];
// None of these is near a colour of a state, and each can be told from white and from the dark background.
const PEOPLE = ["#5633fc", "#b49010", "#15b0b1", "#f518fa", "#fd5203", "#9f6376", "#10721d", "#8a92c9", "#7d7e75"];

/** @type {Map<string, string>} */
const inks = new Map();

/** Returns black or white, whichever is easier to read on a colour.
 * @param {string} colour */
export function inkOn(colour) {
  if (!inks.has(colour)) {
    const part = (/** @type {number} */ at) => {
      const c = parseInt(colour.slice(at, at + 2), 16) / 255;
      return c <= 0.03928 ? c / 12.92 : ((c + 0.055) / 1.055) ** 2.4;
    };
    const light = 0.2126 * part(1) + 0.7152 * part(3) + 0.0722 * part(5);
    inks.set(colour, 1.05 / (light + 0.05) >= (light + 0.05) / 0.05 ? "#ffffff" : "#000000");
  }
  return inks.get(colour);
}

/** Returns the colour of a state.
 * @param {string} state @returns {string} */
export function stateColour(state) {
  const own = styleOf(state);
  if (own) return own[1] || KINDS[own[0]];
  const named = NAMED.find(([pattern]) => pattern.test(state));
  return KNOWN[state] || (named ? named[1] : SPARE[Math.max(0, tree.states.indexOf(state)) % SPARE.length]);
}
/** Returns the colour of one who commands. After some the colours come again: the initials tell them apart.
 * @param {string} name */
export const personColour = (name) =>
  PEOPLE[Math.max(0, tree.operators.findIndex((/** @type {any} */ o) => o.name === name)) % PEOPLE.length];

/** Returns initials for each name, no two the same: the first letters of its words, or of the name if it has one word,
 * or others of its letters, or a number.
 * @param {string[]} names @returns {Map<string, string>} */
export function initialsOf(names) {
  const made = new Map(), taken = new Set();
  names.forEach((name, place) => {
    const words = name.split("_").filter((word) => word), letters = name.replaceAll("_", "");
    const first = words.length > 1 ? words[0][0] + words[1][0] : letters.slice(0, 2);
    const more = [...letters].slice(1).map((letter) => letters[0] + letter);
    const is = [first, ...more].find((it) => !taken.has(it)) || letters[0] + (place + 1);
    taken.add(is);
    made.set(name, is);
  });
  return made;
}

/** Gives an element the colours of a state; those of what was not seen, if it is "".
 * @param {any} e @param {string} state */
export function paint(e, state) {
  if (e.dataset.state === state) return;
  e.dataset.state = state;
  flag(e, "unseen", state === "");
  style(e, "--c", state === "" ? "" : stateColour(state));
  style(e, "--t", state === "" ? "" : inkOn(stateColour(state)));
}
