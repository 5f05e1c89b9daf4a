// Times of the past in words, and as lengths. All are local times of this page.

const MINUTE = 60000, DAY = 86400000;
// What may be between two times of an axis.
const STEPS = [1, 2, 5, 10, 15, 30, 60, 120, 180, 360, 720, 1440, 2880, 10080].map((it) => it * MINUTE);

/** @param {number} it */
const two = (it) => String(it).padStart(2, "0");

/** Returns the time of the day, as 03:12:07.
 * @param {number} at */
export function dayTime(at) {
  // not by toLocaleTimeString, because that takes longer than all else that a band needs
  const it = new Date(at);
  return two(it.getHours()) + ":" + two(it.getMinutes()) + ":" + two(it.getSeconds());
}

/** Returns the date, as 2026-11-30.
 * @param {number} at */
export function dayOf(at) {
  const it = new Date(at);
  return it.getFullYear() + "-" + two(it.getMonth() + 1) + "-" + two(it.getDate());
}

/** Returns a time with its date, to the minute, as 2026-11-30 03:12.
 * @param {number} at */
export const dayMinute = (at) => dayOf(at) + " " + dayTime(at).slice(0, 5);

/** Returns a time, with its date unless that is of the same day as another one.
 * @param {number} at @param {number} other */
export const timeBeside = (at, other) => (dayOf(at) === dayOf(other) ? "" : dayOf(at) + " ") + dayTime(at);

/** Returns a length of time as 1:02:03.
 * @param {number} ms */
export function lengthOf(ms) {
  const s = Math.round(ms / 1000);
  return Math.floor(s / 3600) + ":" + two(Math.floor(s / 60) % 60) + ":" + two(s % 60);
}

/** Returns the times at which an axis has a mark, at most eight or so: whole minutes, hours or days of local time.
 * @param {{from: number, to: number}} span @returns {{at: number, text: string}[]} */
export function axisOf({ from, to }) {
  const step = STEPS.find((it) => (to - from) / it <= 8) || STEPS[STEPS.length - 1] * Math.ceil((to - from) / DAY / 56);
  const off = -MINUTE * new Date(to).getTimezoneOffset(), made = [];
  for (let at = Math.ceil((from + off) / step) * step - off; at < to; at += step) {
    const isDay = step >= DAY || to - from > DAY && dayTime(at) === "00:00:00";
    made.push({ at, text: isDay ? dayOf(at) : dayTime(at).slice(0, 5) });
  }
  return made;
}
