// A tree as it is built, and a picture as it is shown.

import { forgetAlarms, tellAlarms } from "./alarm_list.mjs";
import { boxOf, legendOf, showDevice, showDomain, usualState } from "./boxes.mjs";
import { fitForm } from "./choices.mjs";
import { personColour, stateColour } from "./colours.mjs";
import { fill, opened } from "./details.mjs";
import { by, flag, set, stopAt } from "./dom.mjs";
import { leaveOut, leaveOutAgain, peopleOf } from "./finding.mjs";
import { beginLog, noteChanges, noteSilence, showLog } from "./log.mjs";
import { afterBuild, afterShow, devices, domains, hang, hangPast, heardStations, isPast, newest, now, picture, plant,
  tree } from "./model.mjs";

/** @typedef {import("./model.mjs").Domain} Domain */
/** @typedef {import("./model.mjs").Device} Device */
/** @typedef {import("./model.mjs").Picture} Picture */

// If there are at most this many roots, each has a row over all columns of the dense form.
const MOST_SPANNED = 3;

/** Builds the page of a tree.
 * @param {import("./model.mjs").Tree} next */
export function build(next = tree) {
  plant(next);
  const roots = [...domains.values()].filter((d) => !d.parent);
  by("main").replaceChildren(...roots.map((d) => boxOf(d, 0, roots)));
  stopAt(roots.length ? roots[0].at.top : null);
  flag(document.body, "many", roots.length > MOST_SPANNED);
  const states = tree.states.map((/** @type {string} */ s) => [s, stateColour(s)]);
  const people = tree.operators.map((/** @type {any} */ o) => [o.name, personColour(o.name)]);
  legendOf([...states, ["not seen or silent", ""]], by("states"));
  peopleOf([...people, ["free", ""]], by("people"));
  document.title = "tree " + tree.tree;
  set(by("title"), document.title);
  fitForm();
  leaveOut();
  beginLog();
  forgetAlarms();
  afterBuild.forEach((more) => more());
}

/** Shows the newest picture, as it is now. */
export function show() {
  if (!picture) return;
  const time = now(), heard = heardStations(), usual = usualState();
  domains.forEach((d) => showDomain(d, heard, time, usual));
  set(by("usual"), usual ? "A part without a state is in that of what is above it, or " + usual + " as most are." : "");
  tellAlarms(heard, time);
  if (opened) fill();
  leaveOutAgain();
  afterShow.forEach((more) => more());
}

/** Gives each object of the tree what a picture says of it, and shows that.
 * @param {Picture} next */
function spread(next) {
  next.domains.forEach((row) => {
    const d = domains.get(row.name);
    d.shown = row.shown;
    d.told = row.told;
  });
  next.devices.forEach((row) => {
    const d = devices.get(row.name);
    d.shown = row.shown;
    showDevice(d);
  });
  show();
}

/** Notes what has changed of an object since the live picture before.
 * @param {Domain | Device} x @param {any} row */
function noteRow(x, row) {
  noteChanges(x.live || { shown: null, told: null }, row);
  x.live = row;
}

/** Takes a live picture: notes what has changed, and shows it, unless the page shows an earlier time.
 * @param {Picture} next */
export function take(next) {
  hang(next);
  next.domains.forEach((row) => noteRow(domains.get(row.name), row));
  next.devices.forEach((row) => noteRow(devices.get(row.name), row));
  if (!isPast) {
    spread(next);
    noteSilence();
  }
  showLog();
}

/** Shows a picture of an earlier time, or the newest one again if it is null.
 * @param {Picture | null} earlier */
export function showEarlier(earlier) {
  hangPast(earlier);
  if (earlier || newest) spread(earlier || newest);
}
