// The tree and the newest picture of it (docs/FORMATS.md, "The screen"), and what both say.

/** @typedef {{state: string, boot: number, sequence: number, at: number}} Shown The newest state, and when it came. */
/** @typedef {{operator?: string, domain?: string} | null} Holder Who holds a domain; null if nobody does. */
/** @typedef {{holder: Holder, epoch: number, last: number, busy: boolean, outcome: number, since: number,
 *   heard: number}} Told The furthest record of a domain, and when its keeper was last heard. */
/** @typedef {{name: string, domain: string, shown: Shown | null, dot?: any, live?: any}} Device */
/** @typedef {{name: string, station: string, parent: string | null, accepts?: boolean[], children: Domain[],
 *   devices: Device[], shown: Shown | null, told: Told | null, at?: any, silence?: number | null,
 *   wasSilent?: boolean, counted?: any, live?: any}} Domain
 * `at` has its elements, `silence` how long its station is silent, and `live` what the newest picture says of it. */
/** @typedef {{name: string, station: string}} Operator */
/** @typedef {{tree: number, states: string[], actions: string[], stations: string[], operators: Operator[],
 *   domains: any[], devices: any[]}} Tree */
/** @typedef {{frame: number, now: number, domains: any[], devices: any[]}} Picture */
/** @typedef {{frame: number, now: number, since: number, domains: any[], devices: any[]}} Changes
 * A domain or a device that has not changed is 0, and a domain that was only heard again the time of that. */

export const HOUR = 3600000;
// A state of such a name is an alarm if no style says what it is, because a tree does not say which are.
export const ALARM = /ERROR|FAULT|ALARM|TRIP/;
// What the style file of the screen says of states: the kind of each, and its colour or "".
/** @type {Map<string, [string, string]>} */
let styles = new Map();

/** @type {any} */
export let tree = null;
/** @type {Map<string, Domain>} */
export let domains = new Map();
/** @type {Map<string, Device>} */
export let devices = new Map();
/** The newest picture that came. It is kept aside while the page shows an earlier time.
 * @type {any} */
export let newest = null;
/** The picture that is shown: the newest one, or that of an earlier time.
 * @type {any} */
export let picture = null;
// Whether the page shows an earlier time (past/showing_past.mjs). Nothing may be ordered then, and nothing is an event.
export let isPast = false;
// When the newest picture came, by the page's own clock.
let cameAt = 0;

// What a further part of this page adds to the details of a domain, knows of a child's mode, and does once a tree or a
// picture is shown, and once the screen has begun again.
/** @type {((d: Domain) => any)[]} */
export const extras = [];
/** @type {((d: Domain) => string)[]} */
export const modeSayers = [];
/** @type {(() => void)[]} */
export const afterBuild = [];
/** @type {(() => void)[]} */
export const afterShow = [];
/** @type {(() => void)[]} */
export const afterRestart = [];

/** Takes a tree as the one that is shown, of which nothing was seen yet.
 * @param {Tree} next */
export function plant(next) {
  tree = next;
  domains = new Map(next.domains.map((d) => [d.name, { ...d, children: [], devices: [], shown: null, told: null }]));
  devices = new Map(next.devices.map((d) => [d.name, { ...d, shown: null }]));
  domains.forEach((d) => { if (d.parent) domains.get(d.parent).children.push(d); });
  devices.forEach((d) => domains.get(d.domain).devices.push(d));
  newest = picture = null;
  isPast = false;
}

/** Returns the picture that the newest one has become by what has changed since.
 * @param {Changes} told @returns {Picture} */
export function changed(told) {
  const heard = (d, at) => ({ ...d, told: { ...d.told, heard: at } });
  const next = (it, place, had) => it === 0 ? had[place] : typeof it === "number" ? heard(had[place], it) : it;
  return { frame: told.frame, now: told.now,
    domains: told.domains.map((it, place) => next(it, place, newest.domains)),
    devices: told.devices.map((it, place) => next(it, place, newest.devices)) };
}

/** Takes a picture as the newest one.
 * @param {Picture} next */
export function hang(next) {
  newest = next;
  if (!isPast) picture = next;
  cameAt = performance.now();
}

/** Takes a picture of an earlier time as the one that is shown, or the newest one again if it is null.
 * @param {Picture | null} earlier */
export function hangPast(earlier) {
  isPast = earlier !== null;
  picture = earlier || newest;
}

/** Returns for how many milliseconds no picture has come, by the page's own clock. */
export const lateness = () => performance.now() - cameAt;
/** Returns the time of the screen, whatever is shown. */
export const liveNow = () => newest.now + lateness();
/** Returns the time of what is shown: that of the screen, or an earlier one, which stays. */
export const now = () => isPast ? picture.now : liveNow();
/** Returns a time of what is shown as a date. An earlier picture has dates, and a live one has the screen's clock.
 * @param {number} at */
export const dateOf = (at) => new Date(isPast ? at : Date.now() - (liveNow() - at));

/** Returns who commands a domain, through all levels: null if that was not told, and "" if nobody does.
 * @param {Domain | undefined} d @returns {string | null} */
export function commander(d) {
  for (let level = 0; level <= 8 && d; level += 1) {
    if (!d.told) return null;
    if (d.told.holder === null) return "";
    if (d.told.holder.operator) return d.told.holder.operator;
    d = domains.get(d.told.holder.domain);
  }
  return null;
}

/** @param {Domain | Device} x */
export const stateOf = (x) => x.shown === null ? "" : x.shown.state;
/** @param {Domain | Device} x */
export const versionOf = (x) => x.shown === null ? "" : x.shown.boot + "." + x.shown.sequence;
/** Takes what a style file says of states. The screen calls it below this page, if it has one.
 * @param {Record<string, [string, string]>} said */
export function setStyle(said) { styles = new Map(Object.entries(said)); }
/** @param {string} state */
export const styleOf = (state) => styles.get(state);
/** Returns what a state says of an object: ok, busy, off, alarm or unknown, and "" if that is not known.
 * @param {string} state */
export function kindOf(state) {
  const own = styles.get(state);
  if (own) return own[0];
  return ALARM.test(state) ? "alarm" : state === "UNKNOWN" ? "unknown" : "";
}
/** Returns true if an object is in a state that somebody has to look after.
 * @param {Domain | Device} x */
export const isAlarm = (x) => kindOf(stateOf(x)) === "alarm";
/** Returns true if nothing is known of an object: no alarm, but no reason to be calm either.
 * @param {Domain | Device} x */
export const isUnknown = (x) => stateOf(x) === "" || kindOf(stateOf(x)) === "unknown";

/** @param {Domain} d */
export const holderOf = (d) => d.told && d.told.holder;

/** Returns when each station was last heard, by its domains; those are left out that never were. */
export function heardStations() {
  const heard = new Map();
  domains.forEach((d) => {
    if (d.told) heard.set(d.station, Math.max(heard.get(d.station) ?? -1, d.told.heard));
  });
  return heard;
}

// For how many milliseconds a station may be silent.
export const MOST_SILENCE = 2000;

/** Returns how long the station of a domain has been silent: null if it is heard, and -1 if it never was.
 * @param {Domain} d @param {Map<string, number>} heard @param {number} time @returns {number | null} */
export function silenceOf(d, heard, time) {
  const last = heard.get(d.station);
  if (last === undefined) return -1;
  return time - last > MOST_SILENCE ? time - last : null;
}

/** Returns a length of time in words.
 * @param {number} ms */
export function age(ms) {
  if (ms < 60000) return Math.max(0, Math.round(ms / 1000)) + " s";
  return ms < HOUR ? Math.round(ms / 60000) + " min" : Math.round(ms / HOUR) + " h";
}
