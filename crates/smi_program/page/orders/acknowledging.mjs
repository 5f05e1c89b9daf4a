// Acknowledging alarms. The screen keeps who has acknowledged what, and tells all its pages.

import { isPast } from "../model.mjs";
import { send, tellGiven } from "./giving.mjs";
import { who } from "./given.mjs";
import { lacksToken } from "./token.mjs";

/** @typedef {import("../alarms.mjs").Alarm} Alarm */

/** Who has acknowledged an alarm last, and when by the screen's clock, by the alarm's key.
 * @type {Map<string, {name: string, at: number}>} */
let acknowledged = new Map();

/** Takes what the screen tells, the oldest first.
 * @param {{alarm: string, at: number}[]} list */
export function learnAcknowledged(list) {
  acknowledged = new Map(list.map(({ alarm, at }) => {
    const [kind, object, name] = alarm.split(" ");
    return [kind + " " + object, { name, at }];
  }));
}

/** Returns who has acknowledged an alarm since it began, or "". What the screen tells is of now alone.
 * @param {Alarm} it */
export function knowerOf(it) {
  if (isPast) return "";
  const one = acknowledged.get(it.key);
  return one && one.at >= (it.at ?? 0) ? one.name : "";
}

/** Acknowledges alarms, one after the other.
 * @param {string[]} keys */
export async function acknowledge(keys) {
  if (!who || lacksToken()) {
    tellGiven(who ? "type the token, at the top of the page" : "choose who acknowledges, at the top of the page");
    return;
  }
  for (const key of keys) {
    const line = "acknowledge " + key + " " + who;
    if (!await send(line, line, "/api/alarms")) return;
  }
}
