// What of the tree is left out: all but what has a name, a commander or a state that is typed, the part below a domain
// that is linked to, and what one person commands. What is above that is kept, so that each part has its place.

import { initialsOf, inkOn } from "./colours.mjs";
import { by, flag, make, mark, style } from "./dom.mjs";
import { commander, domains, stateOf } from "./model.mjs";

/** @typedef {import("./model.mjs").Domain} Domain */

/** Whose domains alone are shown; those of all if it is null.
 * @type {string | null} */
let person = null;

/** Returns true if something holds of a domain or of one above it.
 * @param {Domain} d @param {(d: Domain) => boolean} holds */
function isBelow(d, holds) {
  let up = d;
  while (up && !holds(up)) up = domains.get(up.parent);
  return !!up;
}

/** Leaves out what is not looked for. */
export function leaveOut() {
  const text = by("find").value.trim().toUpperCase(), part = domains.get(location.hash.slice(1)), wanted = new Set();
  const isNamed = (/** @type {Domain} */ d) => [d, ...d.devices].some((it) => it.name.includes(text)) ||
    !!text && [commander(d) || "", ...[d, ...d.devices].map(stateOf)].some((name) => name.includes(text));
  const isOf = (/** @type {Domain} */ d) =>
    person === null || (commander(d) || "free") === person && commander(d) !== null;
  domains.forEach((d) => {
    if (part && !isBelow(d, (up) => up === part) || !isBelow(d, isNamed) || !isOf(d)) return;
    for (let up = d; up; up = domains.get(up.parent)) wanted.add(up.name);
  });
  domains.forEach((d) => flag(d.at.box, "left-out", !wanted.has(d.name)));
  // what is found is seen, folded or not
  flag(document.body, "finding", !!text || !!part || person !== null);
  document.querySelectorAll("#people button").forEach((b) => {
    mark(b, "aria-pressed", String(/** @type {any} */ (b).dataset.person === person));
  });
}

/** Leaves out again what may have changed with the picture, and shows the names of those alone who command. */
export function leaveOutAgain() {
  if (person !== null || by("find").value) leaveOut();
  const bosses = new Set([...domains.values()].map((d) => commander(d) || "free"));
  document.querySelectorAll("#people button").forEach((b) => {
    const name = /** @type {any} */ (b).dataset.person;
    flag(b, "idle", !bosses.has(name) && name !== person);
  });
}

/** Shows the names of those who command: each leaves only what that person commands, and once more leaves all again.
 * @param {[string, string][]} items @param {any} place */
export function peopleOf(items, place) {
  const initials = initialsOf(items.map(([name]) => name));
  place.replaceChildren(...items.map(([text, colour]) => {
    const b = make("button"), i = make("i", "initials", colour ? initials.get(text) : "--");
    b.type = "button";
    b.dataset.person = text;
    b.setAttribute("aria-pressed", "false");
    i.setAttribute("aria-hidden", "true");
    if (colour) { style(i, "--c", colour); style(i, "--t", inkOn(colour)); }
    b.append(i, text);
    b.addEventListener("click", () => { person = person === text ? null : text; leaveOut(); });
    return b;
  }));
}
