// Elements of the page, and what somebody has chosen on it.

/** Returns the element of an id.
 * @param {string} id @returns {any} */
export const by = (id) => document.getElementById(id);

/** Makes an element of a class, with a text.
 * @param {string} tag @param {string} [name] @param {string} [text] @returns {any} */
export function make(tag, name, text) {
  const e = document.createElement(tag);
  if (name) e.className = name;
  if (text !== undefined) e.textContent = text;
  return e;
}

// Only what differs is written, so that a picture that is as before costs nothing.

/** @param {Node} e @param {string} text */
export const set = (e, text) => { if (e.textContent !== text) e.textContent = text; };
/** @param {any} e @param {string} name @param {boolean} on */
export const flag = (e, name, on) => { if (e.classList.contains(name) !== on) e.classList.toggle(name, on); };
/** @param {any} e @param {string} key @param {string} value */
export const style = (e, key, value) => {
  if (e.style.getPropertyValue(key) !== value) e.style.setProperty(key, value);
};
/** @param {any} e @param {string} key @param {string} value */
export const mark = (e, key, value) => { if (e.getAttribute(key) !== value) e.setAttribute(key, value); };
/** @param {any} e @param {string} text */
export const label = (e, text) => mark(e, "aria-label", text);

/** The domain of the tree to which Tab leads.
 * @type {any} */
let stop = null;

/** Has Tab lead to a domain of the tree.
 * @param {any} top */
export function stopAt(top) {
  if (stop) stop.tabIndex = -1;
  stop = top;
  if (top) top.tabIndex = 0;
}

/** Goes to a domain of the tree with the keyboard.
 * @param {any} top */
export function enter(top) {
  stopAt(top);
  top.focus();
}

/** Returns what somebody has chosen on this page, or null if nothing was, or if the page may keep nothing.
 * @param {string} what @returns {string | null} */
export function kept(what) {
  try { return localStorage.getItem(what); } catch (refused) { return null; }
}

/** Keeps a choice for the next time that this page is opened.
 * @param {string} what @param {string} value */
export function keep(what, value) {
  try { localStorage.setItem(what, value); } catch (refused) { /* A page that may keep nothing forgets it. */ }
}
