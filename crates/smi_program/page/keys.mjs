// The keyboard: Tab leads into the tree and out of it, and arrows go round in it.

import { fit, resize, turnTheme } from "./choices.mjs";
import { by, enter } from "./dom.mjs";
import { leaveOut } from "./finding.mjs";
import { fold, isFolded, isHidden } from "./folding.mjs";
import { domains } from "./model.mjs";
import { turnPast } from "./past/panel.mjs";

/** @typedef {import("./model.mjs").Domain} Domain */

/** Returns the domains that are seen, in their order on the page.
 * @returns {Domain[]} */
function seen() {
  const tops = /** @type {any[]} */ ([...document.querySelectorAll("#main [data-domain]")]);
  return tops.map((top) => domains.get(top.dataset.domain))
    .filter((d) => !d.at.box.classList.contains("left-out") && !isHidden(d));
}

/** Does what a key says in the tree, and returns true if it says something.
 * @param {string} key */
function moves(key) {
  const all = seen(), here = document.activeElement && /** @type {any} */ (document.activeElement).dataset.domain;
  const d = domains.get(here), at = all.indexOf(d), step = /** @type {any} */ ({ ArrowDown: 1, ArrowUp: -1 })[key];
  /** @type {Domain | null | undefined} */
  let next = null;
  if (!all.length) return false;
  if (step) next = d ? all[(at + step + all.length) % all.length] : all[0];
  else if (!d) return false;
  else if (key === "Home" || key === "End") next = all[key === "Home" ? 0 : all.length - 1];
  else if (key === "ArrowRight" && d.children.length) {
    if (isFolded(d)) fold(d, false); else next = all[at + 1];
  } else if (key === "ArrowLeft") {
    if (d.children.length && !isFolded(d)) fold(d, true); else next = domains.get(d.parent);
  } else return false;
  if (next) enter(next.at.top);
  return true;
}

/** @type {Record<string, () => void>} */
const DEEDS = { t: turnTheme, f: fit, h: turnPast, "/": () => by("find").focus(), "+": () => resize(1.1),
  "-": () => resize(1 / 1.1) };

document.addEventListener("keydown", (key) => {
  const target = /** @type {any} */ (key.target);
  const isTyping = target.matches && target.matches("input, select");
  if (key.ctrlKey || key.metaKey || key.altKey || by("more").open || isTyping) return;
  const isInPast = target.closest && target.closest("#past"), deed = DEEDS[key.key];
  if (deed) deed();
  if (deed || !isInPast && moves(key.key)) key.preventDefault();
});
by("find").addEventListener("input", leaveOut);
by("find").addEventListener("keydown", (/** @type {any} */ key) => {
  if (key.key === "Escape") { by("find").value = ""; by("find").blur(); leaveOut(); }
});
addEventListener("hashchange", leaveOut);
