// What says outside of the page that there are alarms: its title, its icon, and a tone for a new one.

import { by, keep, kept } from "./dom.mjs";
import { tree } from "./model.mjs";

/** @type {AudioContext | null} */
let audio = null;
export let isLoud = kept("sound") === "on";

// How many alarms there are, and whether the screen is lost.
let shownCount = 0, isLost = false;
// The earlier time that the page shows, in words: "" if it shows what is now.
let shownTime = "";

/** Says in the title that the screen is lost, or there again.
 * @param {boolean} is */
export function showLost(is) {
  if (is === isLost) return;
  isLost = is;
  if (is) document.title = "NO CONTACT"; else if (tree) showCount(shownCount);
}

/** Shows how many alarms there are in the title and the icon.
 * @param {number} count */
export function showCount(count) {
  shownCount = count;
  document.title = shownTime || (count ? "(" + count + ") " : "") + "tree " + tree.tree;
  const text = count > 99 ? "99" : String(count);
  const icon = "<svg xmlns='http://www.w3.org/2000/svg' viewBox='0 0 16 16'>" +
    "<rect width='16' height='16' rx='4' fill='" + (count ? "#bb1c1c" : "#0ba860") + "'/>" + (count ? "<text x='8' " +
    "y='12.5' font-size='12' font-family='sans-serif' font-weight='bold' text-anchor='middle' fill='#fff'>" + text +
    "</text>" : "") + "</svg>";
  by("icon").href = "data:image/svg+xml," + encodeURIComponent(icon);
}

/** Says in the title which time the page shows: "" if that is now.
 * @param {string} words */
export function showTime(words) {
  shownTime = words;
  if (!isLost && tree) showCount(shownCount);
}

/** Turns the tone on or off. A browser plays nothing before somebody has clicked on the page.
 * @param {boolean} is */
export function beLoud(is) {
  isLoud = is;
  keep("sound", is ? "on" : "off");
  if (is) ring();
}

/** Plays two short tones, if the browser may. */
export function ring() {
  if (!isLoud) return;
  audio = audio || new AudioContext();
  if (audio.state === "suspended") audio.resume();
  [[880, 0], [660, .18]].forEach(([pitch, after]) => {
    const tone = audio.createOscillator(), volume = audio.createGain(), begin = audio.currentTime + after;
    tone.frequency.value = pitch;
    volume.gain.setValueAtTime(.2, begin);
    volume.gain.exponentialRampToValueAtTime(.001, begin + .16);
    tone.connect(volume).connect(audio.destination);
    tone.start(begin);
    tone.stop(begin + .17);
  });
}
