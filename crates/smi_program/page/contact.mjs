// Asking the screen for pictures, and what is said of the screen itself.

import { by, flag, set } from "./dom.mjs";
import { age, afterRestart, changed, lateness, newest, tree } from "./model.mjs";
import { build, show, take } from "./showing.mjs";
import { showLost } from "./signs.mjs";

// How often a picture is asked for, how long an answer is waited for, and after what time nothing is trusted any more.
const PAUSE = 250, LATE = 900, GONE = 1600;
export const PATIENCE = 1200;
// How old a picture may be of which only the changes are asked for, and how long only changes are.
const RECENT = 1500, WHOLE = 60000;
// When the last picture came, and the last whole one, by the clock of this machine, which goes on while it sleeps.
let gotAt = 0, wholeAt = 0;
// The text of the tree.
let shape = "";

/** Returns the text of a place: null if it is as before, and nothing if no answer came in time.
 * @param {string} path @returns {Promise<string | null | undefined>} */
export async function ask(path) {
  const gone = new AbortController(), bell = setTimeout(() => gone.abort(), PATIENCE);
  try {
    const answer = await fetch(path, { signal: gone.signal, cache: "no-store" });
    if (answer.status === 204) return null;
    return answer.ok ? await answer.text() : undefined;
  } catch (refused) {
    return undefined;
  } finally { clearTimeout(bell); }
}

async function askTree() {
  const text = await ask("/api/tree");
  if (!text || text === shape) return;
  shape = text;
  build(JSON.parse(text));
}

/** Returns the query for what is new: what has changed since the newest picture, or now and then the whole of it. */
function pictureQuery() {
  if (!newest) return "";
  const time = Date.now(), isRecent = time - gotAt < RECENT && time - wholeAt < WHOLE;
  return isRecent ? "?since=" + newest.now : "?after=" + newest.frame;
}

async function askPicture() {
  const text = await ask("/api/picture" + pictureQuery());
  if (!text) return;
  const told = JSON.parse(text), hasAll = told.since === undefined, next = hasAll ? told : changed(told);
  gotAt = Date.now();
  if (hasAll) wholeAt = gotAt;
  // A screen that has begun again counts from 0, and may have another tree.
  if (newest && next.frame < newest.frame) {
    await askTree();
    afterRestart.forEach((again) => again());
  }
  take(next);
}

/** Asks for one picture after the other. */
export async function follow() {
  try {
    if (!tree) await askTree();
    if (tree) await askPicture();
  } finally { setTimeout(follow, PAUSE); }
}

/** Says whether the screen is there: a picture that is not followed by another is not trusted. */
export function showLive() {
  const late = lateness(), live = by("live"), lost = late > GONE, kind = lost ? "lost" : late > LATE ? "late" : "";
  if (live.className !== kind) live.className = kind;
  set(live, lost ? "NO CONTACT" : newest ? "live" : "joining");
  flag(document.body, "lost", lost);
  showLost(lost);
  if (lost) set(by("lost-words"), "NO CONTACT for " + age(late) + ": nothing here is true any more");
}

const tick = () => { set(by("clock"), new Date().toLocaleTimeString("en-GB")); showLive(); show(); };
setInterval(tick, 500);
setInterval(showLive, 100);
tick();
follow();
