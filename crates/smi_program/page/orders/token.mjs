// What the page shows so that the screen takes its orders: the key that it has, or a token that somebody types.

import { by, make } from "../dom.mjs";

/** The token that somebody has typed. It stays as long as this tab of the browser is open.
 * @type {string} */
let typed = "";
try { typed = sessionStorage.getItem("token") || ""; } catch (refused) { /* It has to be typed at each load. */ }

// @ts-ignore (the screen puts the key before this script; it is empty if people have to know a token)
export const asksToken = () => KEY === "";
export const lacksToken = () => asksToken() && typed === "";
// @ts-ignore
export const authorization = () => asksToken() ? "Bearer " + typed : KEY;

/** Takes a token, or forgets it if it is empty.
 * @param {string} text */
export function takeToken(text) {
  typed = text.trim();
  by("token").value = typed;
  try { sessionStorage.setItem("token", typed); } catch (refused) { /* It stays until the page is loaded again. */ }
}

/** Returns where the token is typed. */
export function tokenField() {
  const field = make("input");
  field.id = "token";
  field.type = "password";
  field.autocomplete = "off";
  field.placeholder = "token";
  field.value = typed;
  field.setAttribute("aria-label", "token for orders");
  field.addEventListener("change", () => takeToken(field.value));
  return field;
}
