// The list of alarms, with how many there are.

import { alarmsOf, grouped, unknownWords } from "./alarms.mjs";
import { open } from "./details.mjs";
import { by, make, mark, set } from "./dom.mjs";
import { dateOf, isPast } from "./model.mjs";
import { isShelved, shelve, shelved, unshelve } from "./shelf.mjs";
import { beLoud, isLoud, ring, showCount } from "./signs.mjs";

/** @typedef {import("./alarms.mjs").Alarm} Alarm */

// How many are listed unless somebody wants all, and how many new ones are read out by name.
const MOST_LISTED = 40, MOST_READ = 3;
/** When each alarm of the list began, by its key; null before the first list.
 * @type {Map<string, number | null> | null} */
let since = null;
/** Returns who has acknowledged an alarm, or "": what may order has one here.
 * @type {((it: Alarm) => string)[]} */
export const knowers = [];
/** Acknowledges alarms by their keys: what may order has one here.
 * @type {((keys: string[]) => void)[]} */
export const acknowledgers = [];
// What is listed, as a text, and whether all is.
let listed = "", isAll = false;
/** The elements that say how long a station has been silent, by the alarm's key.
 * @type {Map<string, any>} */
let texts = new Map();

/** Forgets what was listed, because there is another tree. */
export function forgetAlarms() { since = null; listed = ""; }

/** Returns a time of what is shown as one of the day.
 * @param {number | null} at */
const clock = (at) => at === null ? "--:--:--" : dateOf(at).toLocaleTimeString("en-GB");

/** Says new alarms to somebody who does not see them, and plays a tone.
 * @param {Alarm[]} alarms @param {Alarm[]} fresh @param {string} unknown */
function announce(alarms, fresh, unknown) {
  if (fresh.length) {
    const names = fresh.slice(0, MOST_READ).map((it) => it.isSilence ? "station " + it.name + " is silent" : it.text);
    const more = fresh.length > MOST_READ ? " and " + (fresh.length - MOST_READ) + " more" : "";
    set(by("said"), names.join(", ") + more);
    ring();
  } else if (!alarms.length) set(by("said"), unknown || "no alarms");
}

/** Keeps when each alarm began, says which are new, and returns those that are not shelved.
 * @param {Alarm[]} all @param {string} unknown */
function liveAlarms(all, unknown) {
  const old = since;
  since = new Map(all.map((it) => [it.key, old && old.has(it.key) ? old.get(it.key) : it.at]));
  all.forEach((it) => { it.at = since.get(it.key); });
  shelved();
  const alarms = all.filter((it) => !isShelved(it.key));
  announce(alarms, old ? alarms.filter((it) => !old.has(it.key)) : [], unknown);
  return alarms;
}

/** Tells the alarms.
 * @param {Map<string, number>} heard @param {number} time */
export function tellAlarms(heard, time) {
  const all = alarmsOf(heard, time), unknown = unknownWords();
  all.forEach((it) => { it.knower = knowers.map((tell) => tell(it)).find((name) => name) || ""; });
  const alarms = isPast ? all : liveAlarms(all, unknown), off = isPast ? [] : shelved();
  const isHiding = alarms.length < all.length;
  const groups = grouped(alarms), hidden = isAll ? 0 : Math.max(0, alarms.length - MOST_LISTED);
  const keys = groups.map(([, list]) =>
    list.map((it) => [it.key, it.isSilence ? "" : it.text, it.follows, it.knower, isPast ? it.at : 0]));
  const shown = JSON.stringify([keys, hidden, unknown, off, isLoud, isHiding, isPast]);
  if (shown !== listed) {
    listed = shown;
    const calm = isHiding ? "no alarms but shelved ones" : unknown ? "no alarm is known" : "no alarms";
    draw(alarms.length ? countWords(alarms) : calm, groups, hidden, unknown, off);
    if (!isPast) showCount(alarms.length);
  }
  alarms.forEach((it) => { if (it.isSilence && texts.has(it.key)) set(texts.get(it.key), it.text); });
}

/** Returns the words for how many there are.
 * @param {Alarm[]} alarms */
function countWords(alarms) {
  const silent = alarms.filter((it) => it.isSilence).length;
  return alarms.length - silent + " in alarm, " + silent + " silent";
}

/** Returns a button with a text.
 * @param {string} name @param {string} text @param {() => void} deed */
function button(name, text, deed) {
  const b = make("button", name, text);
  b.type = "button";
  b.addEventListener("click", deed);
  return b;
}

/** Returns an alarm of the list.
 * @param {Alarm} it */
function rowOf(it) {
  const li = make("li", "alarm" + (it.isSilence ? " warn" : "") + (it.knower ? " known" : ""));
  const lead = button("", "", () => open(it.domain)), known = it.knower ? "acknowledged by " + it.knower : "";
  const text = make("b", "", it.text), names = it.follows.join(" ");
  const words = it.isSilence ? it.follows.length > 1 ? "keeps " + names : "" : names ? "so " + names : "";
  lead.dataset.alarm = it.domain;
  lead.dataset.key = it.key;
  lead.title = words;
  lead.append(make("time", "", clock(it.at)), " ", text, ...(known ? [" ", make("i", "", known)] : []),
    ...(words ? [" ", make("small", "", words)] : []));
  texts.set(it.key, text);
  // an alarm of an earlier time can be looked at, and that is all
  if (isPast) {
    li.append(lead);
    return li;
  }
  const off = button("small", "shelve", () => { shelve(it.key, Number(by("shelf-time").value)); });
  off.setAttribute("aria-label", "shelve " + it.name);
  li.append(lead, ...acknowledgers.filter(() => !known).map((deed) => {
    const taken = button("small", "acknowledge", () => deed([it.key]));
    taken.setAttribute("aria-label", "acknowledge " + it.name);
    taken.dataset.key = it.key;
    return taken;
  }), off);
  return li;
}

/** Returns the list, without the last ones if they are too many.
 * @param {[string, Alarm[]][]} groups @param {number} most */
function listOf(groups, most) {
  const ul = make("ul");
  let left = most;
  groups.forEach(([name, alarms]) => {
    const list = make("ul"), head = make("h3", "", name), group = make("li");
    if (left <= 0) return;
    head.append(make("span", "", String(alarms.length)));
    list.append(...alarms.slice(0, left).map(rowOf));
    left -= alarms.length;
    group.append(head, list);
    ul.append(group);
  });
  return ul;
}

/** Returns for how long an alarm can be shelved, to choose from.
 * @param {string} chosen */
function shelfTimes(chosen) {
  const select = make("select");
  select.id = "shelf-time";
  select.setAttribute("aria-label", "for how long an alarm is shelved");
  select.append(...[["10", "10 min"], ["60", "1 h"], ["480", "8 h"]].map(([value, text]) => {
    const option = make("option", "", text);
    option.value = value;
    option.selected = value === chosen;
    return option;
  }));
  return select;
}

/** Returns the alarms that are shelved.
 * @param {[string, number][]} off */
function shelfOf(off) {
  const box = make("details", "shelved"), list = make("ul"), old = by("shelved");
  box.id = "shelved";
  box.open = !!old && old.open;
  box.append(make("summary", "", off.length + " shelved"), list);
  list.append(...off.map(([key, until]) => {
    const li = make("li", "alarm"), name = key.slice(key.indexOf(" ") + 1);
    const back = button("small", "list", () => unshelve(key));
    back.setAttribute("aria-label", "list " + name + " again");
    li.append(make("span", "", name + " until " + new Date(until).toLocaleTimeString("en-GB")), back);
    return li;
  }));
  return box;
}

/** Draws all of it again, and leads the keyboard back to where it was.
 * @param {string} heading @param {[string, Alarm[]][]} groups @param {number} hidden @param {string} unknown
 * @param {[string, number][]} off */
function draw(heading, groups, hidden, unknown, off) {
  const focus = document.activeElement && /** @type {any} */ (document.activeElement).dataset.key;
  const head = make("div", "alarm-head"), sound = button("tool", "sound", () => beLoud(!isLoud));
  const count = groups.reduce((sum, [, list]) => sum + list.length, 0), old = by("shelf-time");
  sound.id = "sound";
  sound.title = "a tone for each new alarm, once somebody has clicked on this page";
  mark(sound, "aria-pressed", String(isLoud));
  texts = new Map();
  const fresh = groups.flatMap(([, list]) => list.filter((it) => !it.knower).map((it) => it.key));
  head.append(make("h2", "", heading), ...(fresh.length && !isPast ? acknowledgers.map((deed) =>
    button("tool", "acknowledge all " + fresh.length, () => deed(fresh))) : []),
    ...(count && !isPast ? [make("span", "", "shelve for"), shelfTimes(old ? old.value : "10")] : []), sound);
  by("alarms").replaceChildren(head, listOf(groups, hidden ? MOST_LISTED : count),
    ...(hidden ? [button("tool", "and " + hidden + " more", () => { isAll = true; })] : []),
    ...(isAll && count > MOST_LISTED ? [button("tool", "the newest alone", () => { isAll = false; })] : []),
    ...(unknown ? [make("p", "unknown", unknown)] : []), ...(off.length ? [shelfOf(off)] : []));
  const again = focus && [...by("alarms").querySelectorAll("[data-key]")].find((b) => b.dataset.key === focus);
  if (again) again.focus();
}
