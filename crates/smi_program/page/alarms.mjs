// What is in alarm: each trip once, however far it is seen above, and each silent station once.

import { age, devices, domains, holderOf, isAlarm, isUnknown, MOST_SILENCE, silenceOf, stateOf } from "./model.mjs";

/** @typedef {import("./model.mjs").Domain} Domain */
/** @typedef {{key: string, isSilence: boolean, group: string, domain: string, name: string, text: string,
 *   at: number | null, follows: string[], knower?: string}} Alarm
 * `group` is the sub-detector, `at` when it began by the screen's clock, `follows` what is in alarm by it, and `knower`
 * who has acknowledged it: "" if nobody has. */

/** Returns the sub-detector of a domain: the one below the root that it is in, or the root itself.
 * @param {Domain} d */
export function groupOf(d) {
  let at = d;
  while (at.parent && domains.get(at.parent).parent) at = domains.get(at.parent);
  return at.name;
}

/** Returns true if the state of a child may count in that of the domain above: it is not known that another one holds
 * it.
 * @param {Domain} child @param {Domain} parent */
const mayCount = (child, parent) => !child.told || !!holderOf(child) && holderOf(child).domain === parent.name;

/** Returns the domains that are in alarm because of something in a domain: that one, and those above, as far as each
 * counts in the next.
 * @param {Domain} d */
function alarmsAbove(d) {
  const reached = [];
  for (let at = d; at && isAlarm(at); at = mayCount(at, domains.get(at.parent) || at) ? domains.get(at.parent) : null) {
    reached.push(at.name);
  }
  return reached;
}

/** Returns true if nothing in a domain or right below it says why it is in alarm.
 * @param {Domain} d */
const isOwnCause = (d) =>
  isAlarm(d) && !d.devices.some(isAlarm) && !d.children.some((c) => isAlarm(c) && mayCount(c, d));

/** Returns the trips: of devices, and of domains that are in alarm by themselves.
 * @returns {Alarm[]} */
function tripsOf() {
  return [...domains.values()].flatMap((d) => {
    const of = { isSilence: false, group: groupOf(d), domain: d.name };
    const trips = d.devices.filter(isAlarm).map((device) => ({ ...of, key: "device " + device.name, name: device.name,
      text: device.name + " " + stateOf(device), at: device.shown.at, follows: alarmsAbove(d) }));
    return isOwnCause(d) ? [...trips, { ...of, key: "domain " + d.name, name: d.name, text: d.name + " " + stateOf(d),
      at: d.shown.at, follows: alarmsAbove(d).slice(1) }] : trips;
  });
}

/** Returns the silent stations, each with the first of its domains.
 * @param {Map<string, number>} heard @param {number} time @returns {Alarm[]} */
function silencesOf(heard, time) {
  const seen = new Set();
  return [...domains.values()].flatMap((d) => {
    const silence = silenceOf(d, heard, time);
    if (seen.has(d.station)) return [];
    seen.add(d.station);
    if (silence === null || (silence < 0 && time <= MOST_SILENCE)) return [];
    return [{ key: "station " + d.station, isSilence: true, group: groupOf(d), domain: d.name, name: d.station,
      text: d.station + (silence < 0 ? " not heard" : " silent " + age(silence)), at: heard.get(d.station) ?? null,
      follows: [...domains.values()].filter((other) => other.station === d.station).map((other) => other.name) }];
  });
}

/** Returns all alarms.
 * @param {Map<string, number>} heard @param {number} time @returns {Alarm[]} */
export const alarmsOf = (heard, time) => [...tripsOf(), ...silencesOf(heard, time)];

/** Returns alarms by their sub-detectors, newest first, and the sub-detector of the newest first. One of which nobody
 * knows when it began is last.
 * @param {Alarm[]} alarms @returns {[string, Alarm[]][]} */
export function grouped(alarms) {
  const sorted = [...alarms].sort((a, b) => (b.at ?? -1) - (a.at ?? -1) || (a.key < b.key ? -1 : 1));
  const groups = new Map(sorted.map((it) => [it.group, /** @type {Alarm[]} */ ([])]));
  sorted.forEach((it) => groups.get(it.group).push(it));
  return [...groups];
}

/** Returns how much is unknown, in words, and in which sub-detectors. */
export function unknownWords() {
  const lost = [...domains.values()].filter((d) => isUnknown(d) || d.devices.some(isUnknown));
  const all = /** @type {[Map<string, any>, string][]} */ ([[domains, " domain"], [devices, " device"]]);
  const counts = all.map(([them, name]) => {
    const count = [...them.values()].filter(isUnknown).length;
    return count ? count + " of " + them.size + name + (them.size > 1 ? "s" : "") : "";
  }).filter((words) => words);
  if (!counts.length) return "";
  return "UNKNOWN or not seen: " + counts.join(", ") + " (" + [...new Set(lost.map(groupOf))].join(", ") + ")";
}
