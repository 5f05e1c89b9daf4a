// Who is at this page: a name that somebody has typed. It goes with each order, and is in the journals.

import { keep, kept, label, make } from "../dom.mjs";

const MOST_IN_NAME = 32;

/** Returns the name in a text: printable ASCII without ", \ and #, and without spaces at its ends.
 * @param {string} text */
const nameIn = (text) => text.replace(/[^ !$-[\]-~]/g, "").trim().slice(0, MOST_IN_NAME).trim();

/** The name, which is kept in this browser.
 * @type {string} */
let myName = nameIn(kept("name") || "");

/** Takes a name, or forgets it if it is empty.
 * @param {string} text */
function takeName(text) {
  myName = nameIn(text);
  keep("name", myName);
}

/** Returns a line with the name after it, if somebody has typed one.
 * @param {string} line */
export const signed = (line) => myName ? line + " # " + myName : line;

/** Returns where the name is typed. */
export function nameField() {
  const field = make("input");
  field.id = "my-name";
  field.maxLength = MOST_IN_NAME;
  field.autocomplete = "off";
  field.placeholder = "your name";
  field.title = "it goes with each order";
  field.value = myName;
  label(field, "your name");
  field.addEventListener("input", () => takeName(field.value));
  // what was not taken is shown until the field is left
  field.addEventListener("blur", () => { field.value = myName; });
  return field;
}
