// What somebody chooses on this page: light or dark, the dense form, and the size of the letters.

import { by, keep, kept } from "./dom.mjs";
import { domains } from "./model.mjs";

// A tree of more domains is shown in its dense form, unless somebody has chosen.
const MOST_AT_EASE = 64;

/** @param {string} next */
function theme(next) {
  document.documentElement.dataset.theme = next;
  keep("theme", next);
}

/** Turns light into dark, and dark into light. */
export function turnTheme() {
  const chosen = document.documentElement.dataset.theme;
  const dark = chosen ? chosen === "dark" : matchMedia("(prefers-color-scheme: dark)").matches;
  theme(dark ? "light" : "dark");
}

// The dense form shows a part that is in the state of what is above it by the dots of its devices alone.
/** @param {boolean} is */
function thicken(is) {
  document.body.classList.toggle("dense", is);
  by("dense").setAttribute("aria-pressed", String(is));
}

/** Chooses the form for a tree, unless somebody has: the dense one if it is large, and on a telephone. */
export function fitForm() {
  const isSmall = matchMedia("(max-width: 40rem)").matches;
  thicken(kept("dense") === null ? isSmall || domains.size > MOST_AT_EASE : kept("dense") === "true");
}

// The size of all letters, beside the browser's own zoom.
let size = Math.min(4, Math.max(.5, Number(kept("size")) || 1));

/** Changes the size of all letters.
 * @param {number} factor */
export function resize(factor) {
  size = Math.min(4, Math.max(.5, size * factor));
  document.documentElement.style.setProperty("--size", String(size));
  keep("size", String(size));
}

/** Returns true if all of the tree is in the window, which may be scrolled as a whole or at the tree alone. */
function isAllSeen() {
  const root = document.documentElement, main = by("main").parentElement;
  const fits = (/** @type {any} */ e) => e.scrollHeight <= e.clientHeight && e.scrollWidth <= e.clientWidth;
  return fits(root) && fits(main);
}

/** Finds the largest size of all letters with which the whole tree is in the window. */
export function fit() {
  let low = .5, high = 4;
  while (high - low > .02) {
    const middle = (low + high) / 2;
    document.documentElement.style.setProperty("--size", String(middle));
    if (isAllSeen()) low = middle; else high = middle;
  }
  size = low;
  resize(1);
}

by("theme").addEventListener("click", turnTheme);
by("fit").addEventListener("click", fit);
if (kept("theme") === "light" || kept("theme") === "dark") document.documentElement.dataset.theme = kept("theme");
by("dense").addEventListener("click", () => {
  thicken(!document.body.classList.contains("dense"));
  keep("dense", String(document.body.classList.contains("dense")));
});
resize(1);
