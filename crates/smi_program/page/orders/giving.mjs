// Giving an order, and waiting until it has ended.

import { PATIENCE } from "../contact.mjs";
import { by, set } from "../dom.mjs";
import { countedFor, endCounted, isOfMode } from "./counted.mjs";
import { found, given, who } from "./given.mjs";
import { noteMode } from "./modes.mjs";
import { signed } from "./naming.mjs";
import { asksToken, authorization, takeToken } from "./token.mjs";

/** @typedef {import("./deeds.mjs").Deed} Deed */

/** @typedef {{line: string, after: number, number: number, end: Promise<number | null>,
 *   tell: (code: number | null) => void}} Awaited
 * An order whose end is awaited: `after` is the number of the newest one before it, `number` its own once known. */

/** @type {Awaited[]} */
let awaited = [];

/** @param {string} text */
export function tellGiven(text) { set(by("told"), text); }

/** Sends a line, and returns true if the screen has taken it. The page calls it by its name.
 * @param {string} line @param {string} name @param {string} [place] */
export async function send(line, name, place = "/api/orders") {
  const gone = new AbortController(), bell = setTimeout(() => gone.abort(), PATIENCE);
  try {
    const answer = await fetch(place, { method: "POST", body: line, headers: { Authorization: authorization() },
      signal: gone.signal, cache: "no-store", credentials: "omit" });
    const isWrong = asksToken() && answer.status === 403;
    if (isWrong) takeToken("");
    tellGiven(name + ": " + (isWrong ? "the token is wrong, type it at the top of the page" : await answer.text()));
    return answer.ok;
  } catch (refused) {
    tellGiven(name + ": not known whether the screen has it, look below");
    return false;
  } finally { clearTimeout(bell); }
}

/** Begins to await the end of an order that is about to be given.
 * @param {string} line @returns {Awaited} */
function expect(line) {
  /** @type {any} */
  const one = { line, after: given.length ? given[given.length - 1].number : 0, number: 0 };
  one.end = new Promise((tell) => { one.tell = tell; });
  awaited.push(one);
  return one;
}

/** Tells the ends that are known now. */
export function tellEnds() {
  awaited = awaited.filter((one) => {
    const it = given.find(({ number, line }) => one.number ? number === one.number
      : line === one.line && number > one.after && !found.has(number));
    if (it) found.add(one.number = it.number);
    if (!it || it.waits) return true;
    one.tell(it.code);
    return false;
  });
}

/** Gives an order, and returns its code once it has ended; null if that is not known.
 * @param {string} order */
export async function give(order) {
  const line = "order " + who + " " + order, words = order.split(" "), counts = countedFor(words), one = expect(line);
  if (!await send(signed(line), line)) {
    awaited = awaited.filter((it) => it !== one);
    one.tell(null);
  }
  const code = await one.end;
  endCounted(words, counts, code);
  // 3 says that the child was in that mode already.
  if (isOfMode(words[0]) && (code === 0 || code === 3)) noteMode(words[0], words[2]);
  return code;
}

/** Makes children manual, one after the other, and then gives an order.
 * @param {Deed} deed @param {string[]} names */
export async function giveAfterManual(deed, names) {
  for (const name of names) {
    const code = await give("manual " + deed.at.name + " " + name);
    // 3 says that it was manual already.
    if (code !== 0 && code !== 3) {
      tellGiven(deed.name + " was not ordered: " + name + " was not made manual");
      return;
    }
  }
  await give(deed.line());
}
