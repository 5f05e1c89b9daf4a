// The question before an order: what would hold it up, and what can be answered.

import { by, make, set } from "../dom.mjs";
import { age, now } from "../model.mjs";
import { isSilent } from "./counted.mjs";
import { whyNobody } from "./deeds.mjs";
import { LANES, domainOf, orderOf, waitedFor, waitingOf, who } from "./given.mjs";
import { give, giveAfterManual } from "./giving.mjs";
import { held } from "./modes.mjs";

/** @typedef {import("../model.mjs").Domain} Domain */
/** @typedef {import("./deeds.mjs").Deed} Deed */
/** @typedef {[string, () => any]} Choice What can be answered, and what is done then. */

// For how many milliseconds a domain may be at work before that is told.
const LONG = 2000;

/** Asks a question, with the choice at a place as the one that Enter takes.
 * @param {string} words @param {Choice[]} choices @param {number} first */
function question(words, choices, first) {
  const dialog = by("question");
  set(by("question-words"), words);
  by("choices").replaceChildren(...choices.map(([text, deed], place) => {
    const b = make("button", "", text);
    b.type = "button";
    b.autofocus = place === first;
    b.addEventListener("click", () => { dialog.close(); deed(); });
    return b;
  }));
  dialog.showModal();
}

/** Returns what of the same operator would hold an order up at the node, if anything.
 * @param {Deed} deed */
function waitingWords(deed) {
  const waiting = waitedFor(waitingOf(who), deed.at.name), words = waiting.map(orderOf);
  if (!waiting.length) return "";
  if (domainOf(waiting[0]) !== deed.at.name) {
    return "Orders of " + who + " about " + LANES + " domains wait already (" + words.join(", ") + "). " + deed.name +
      " will wait until one of them has ended.";
  }
  const more = waiting.length - 1;
  return who + " has given " + words[0] + " " + waiting[0].seconds + " s ago, and it still waits" +
    (more ? ", with " + more + " more about " + deed.at.name : "") + ". " + deed.name + " will wait until " +
    (more ? "they have ended." : "it has ended.");
}

/** Returns how long the domain has been at work, if that is long: it begins no other command until then. It was still
 * at work when it was last heard, which in a large tree may be some seconds ago.
 * @param {Deed} deed */
function busyWords(deed) {
  const told = deed.at.told, isLong = told && told.busy && told.heard - told.since >= LONG;
  if (!isLong || !(deed.isCommand || deed.isOfMode)) return "";
  return deed.at.name + " has been at work on a command for " + age(now() - told.since) + ". " + deed.name +
    " will wait until that has ended.";
}

/** @param {Domain} d */
const silenceText = (d) => d.silence < 0 ? "has not been heard yet" : "has been silent for " + age(d.silence);

/** Returns what is said of a silent station that keeps the domain itself: nothing can be made manual there.
 * @param {Deed} deed */
function keeperWords(deed) {
  return deed.at.station + ", which keeps " + deed.at.name + ", " + silenceText(deed.at) + ". " + deed.name +
    " will wait until it is back, and so will what " + who + " orders of " + deed.at.name + " after it.";
}

/** Returns what is said of stations that have gone silent below: they would hold the domain, and all that it commands.
 * @param {Deed} deed @param {Domain[]} silent */
function belowWords(deed, silent) {
  const stations = [...new Set(silent.map((d) => d.station))], many = stations.length > 1;
  const others = held(deed.at).filter((c) => !silent.some((d) => d === c)).map((c) => c.name);
  return stations.join(", ") + " " + (many ? "are silent" : silenceText(silent[0])) + ". " + deed.name +
    " will hold " + deed.at.name + ", and nobody will command " + (others.join(", ") || deed.at.name) + " until " +
    (many ? "they are back." : "it is back.");
}

/** Returns what would hold up an order, in sentences, and what can be answered.
 * @param {Deed} deed @returns {{words: string, choices: Choice[]}} */
function doubtsOf(deed) {
  const waits = waitingWords(deed) || busyWords(deed), silent = deed.waitsFor();
  const told = isSilent(deed.at) ? keeperWords(deed) : silent.length ? belowWords(deed, silent) : "";
  /** @type {Choice[]} */
  const choices = [[deed.name + " anyway", () => give(deed.line())], ["cancel", () => {}]];
  if (deed.isCommand && silent.length && !isSilent(deed.at) && !waits) {
    const names = silent.map((d) => d.name);
    choices.unshift(["make " + names.join(", ") + " manual, then " + deed.name, () => giveAfterManual(deed, names)]);
  }
  return { words: [waits, told].filter((text) => text).join(" "), choices };
}

/** Asks before an order, if it may be given.
 * @param {Deed} deed */
export function confirm(deed) {
  if (whyNobody() || deed.why()) return;
  const { words, choices } = doubtsOf(deed);
  if (words) question(words, choices, choices.length - 1);
  else question(deed.asked, [["yes, " + deed.name, () => give(deed.line())], ["cancel", () => {}]], 0);
}
