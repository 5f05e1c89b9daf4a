// What became of the orders: those that wait with what they wait for, and those that have ended.

import { ask } from "../contact.mjs";
import { opened } from "../details.mjs";
import { by, flag, set } from "../dom.mjs";
import { note } from "../log.mjs";
import { domains, liveNow, newest, tree } from "../model.mjs";
import { learnAcknowledged } from "./acknowledging.mjs";
import { listHere, offerOperators } from "./choosing.mjs";
import { asksChild, isManual, isOfMode, isSilent, parentOf } from "./counted.mjs";
import { byWhom, connect, firstBefore, found, given, hasBegun, hasConsole, learn, orderOf, wordsOf } from "./given.mjs";
import { lister } from "./given_list.mjs";
import { tellEnds } from "./giving.mjs";
import { held, learnModes } from "./modes.mjs";
import { tellBegun } from "./withdrawals.mjs";

/** @typedef {import("../model.mjs").Domain} Domain */
/** @typedef {import("./given.mjs").Order} Order */

// How often it is asked what became of the orders, how many that have ended are shown, and for how long.
const BETWEEN = 400, SHOWN = 4, SHOWN_FOR = 20000;
/** When each was first seen to have ended.
 * @type {Map<number, number>} */
const ended = new Map();
/** What lists all of them on the page.
 * @type {((rows: import("./given_list.mjs").Row[]) => void) | null} */
let listAll = null;

/** Returns the station that a command waits for: that of the first silent domain on its way down, or of one that is at
 * work. A child that is manual is not on its way.
 * @param {Domain} d @returns {string} */
function waitsFor(d) {
  if (isSilent(d)) return d.station;
  const below = held(d).filter((c) => !isManual(c));
  const next = below.find(isSilent) || below.find((c) => c.told.busy);
  return next ? waitsFor(next) : d.station;
}

/** Returns the domains from one down to another below it.
 * @param {Domain} top @param {Domain} low */
function pathOf(top, low) {
  const path = [];
  for (let at = low; at && at !== top; at = domains.get(at.parent)) path.unshift(at);
  return [top, ...path];
}

/** Returns the station that an order waits for.
 * @param {string[]} words */
function stationOf([verb, name, target]) {
  const d = domains.get(name);
  if (!d) return "";
  if (verb === "do") return waitsFor(d);
  const parts = isOfMode(verb) && domains.has(target) ? [...pathOf(d, parentOf(target)),
    ...(asksChild(verb) ? [domains.get(target)] : [])] : [d];
  const silent = parts.find(isSilent);
  return silent ? silent.station : d.told && d.told.busy ? waitsFor(d) : d.station;
}

/** Returns what became of an order, in words.
 * @param {Order} it */
function fateOf(it) {
  if (it.waits) {
    const first = firstBefore(it), station = stationOf(wordsOf(it).slice(1));
    return "waits " + it.seconds + " s" + (first ? " until " + orderOf(first) + " has ended"
      : station ? " for station " + station : "") + (hasBegun(it) ? ", has begun and can't be withdrawn" : "");
  }
  if (it.code !== null) return it.code + ": " + it.words;
  return it.answer || "the connection with the console broke: not known how it ended";
}

/** Returns the colour of an order: that of what waits, what was done, what was withdrawn, or what was refused.
 * @param {Order} it */
function edgeOf(it) {
  if (it.waits) return "#f2c841";
  return it.code === 0 ? "#0ba860" : it.answer === "withdrawn" ? "#5a5f6d" : "#bb1c1c";
}

function showGiven() {
  const time = performance.now();
  given.forEach((it) => {
    if (it.waits || ended.has(it.number)) return;
    ended.set(it.number, time);
    if (newest) note(it.line + byWhom(it) + ": " + fateOf(it), liveNow());
  });
  const old = given.filter((it) => !it.waits && time - ended.get(it.number) < SHOWN_FOR).slice(-SHOWN);
  const rows = given.filter((it) => it.waits || old.includes(it)).map((it) => ({ number: it.number,
    order: it.line.slice(6) + byWhom(it), fate: fateOf(it) + (found.has(it.number) ? "" : ", not from this page"),
    edge: edgeOf(it), isFirm: !it.waits || hasBegun(it), names: wordsOf(it).slice(2) }));
  listAll = listAll || lister(by("given"));
  listAll(rows);
  if (opened && listHere) listHere(rows.filter((row) => row.names.includes(opened)));
}

/** Asks again and again what became of the orders. */
export async function followOrders() {
  try {
    const text = await ask("/api/orders"), next = text ? JSON.parse(text) : null;
    connect(!!next && next.console);
    if (next) learn(next.orders);
    learnModes((next && next.modes) || []);
    if (next) learnAcknowledged(next.acknowledged || []);
    tellEnds();
    tellBegun();
  } finally {
    flag(by("console"), "away", !hasConsole);
    set(by("console"), hasConsole ? "orders: connected" : "orders: NO CONSOLE");
    if (tree) { showGiven(); offerOperators(); }
    setTimeout(followOrders, BETWEEN);
  }
}
