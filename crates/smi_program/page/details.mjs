// The details of one domain and of its devices.

import { paint } from "./colours.mjs";
import { by, enter, flag, make } from "./dom.mjs";
import { isHidden } from "./folding.mjs";
import { age, commander, domains, extras, holderOf, modeSayers, now, picture, stateOf, versionOf } from "./model.mjs";

/** @typedef {import("./model.mjs").Domain} Domain */
/** @typedef {import("./model.mjs").Device} Device */

/** The domain whose details are open.
 * @type {string | null} */
export let opened = null;
/** @type {any} */
let facts = null;

/** Opens the details of a domain.
 * @param {string} domain */
export function open(domain) {
  const more = by("more"), name = make("h2", "", domain), shut = make("button", "tool", "close (Esc)");
  const head = make("div");
  opened = domain;
  name.id = "more-name";
  head.id = "more-head";
  head.append(name, shut);
  facts = make("div");
  shut.type = "button";
  shut.autofocus = true;
  shut.addEventListener("click", () => more.close());
  const alone = make("a", "tool", "show this part alone");
  alone.href = "#" + domain;
  alone.addEventListener("click", () => more.close());
  more.replaceChildren(head, facts, alone, ...extras.map((extra) => extra(domains.get(domain))));
  fill();
  if (!more.open) more.showModal();
}

/** Returns in which mode a domain is.
 * @param {Domain} d */
function modeWords(d) {
  const holder = holderOf(d), mode = modeSayers.map((say) => say(d)).find((said) => said);
  if (!d.parent || d.told && !(holder && holder.domain)) return "has none: it is not held by what is above";
  return mode || "mode unknown";
}

/** Returns what is known of a domain, a name and a text each.
 * @param {Domain} d @returns {[string, string][]} */
function rows(d) {
  const told = d.told, shown = d.shown, boss = commander(d), holder = told && told.holder;
  return [
    [d.silence === null ? "state" : "last seen", shown ? shown.state + " (" + versionOf(d) + ", seen for " +
      age(now() - shown.at) + ")" : "not seen"],
    ["held by", !told ? "not heard" : !holder ? "nobody" : holder.operator || "domain " + holder.domain],
    ["commanded by", boss === null ? "not told" : boss || "nobody"],
    ["mode", modeWords(d)],
    ["epoch", told ? String(told.epoch) : ""],
    ["last command", !told || !told.last ? "none" : told.last +
      (told.busy ? ", at work" : ", ended with " + told.outcome)],
    ["kept by", "station " + d.station],
    ["above it", d.parent || "nothing"],
    ["below it", d.children.map((child) => child.name).join(" ") || "nothing"],
    ["heard", told ? age(now() - told.heard) + " ago" : "never"],
  ];
}

/** Returns a table of devices.
 * @param {Device[]} list */
function tableOf(list) {
  const table = make("table"), head = make("tr");
  ["device", "state", "version", "seen for"].forEach((text) => {
    const th = make("th", "", text);
    th.scope = "col";
    head.append(th);
  });
  table.append(head, ...list.map((device) => {
    const row = make("tr"), cell = make("td"), state = make("span", "state", stateOf(device) || "not seen");
    const shown = device.shown;
    paint(state, stateOf(device));
    cell.append(state);
    row.append(make("td", "", device.name), cell, make("td", "", versionOf(device)),
      make("td", "", shown ? age(now() - shown.at) : ""));
    return row;
  }));
  return table;
}

/** Fills in the details that are open. */
export function fill() {
  const d = domains.get(opened), list = make("dl");
  if (!d || !picture) return;
  rows(d).forEach(([key, value]) => list.append(make("dt", "", key), make("dd", "", value)));
  flag(facts, "old", d.silence !== null);
  facts.replaceChildren(list, ...(d.devices.length ? [tableOf(d.devices)] : []));
}

by("more").addEventListener("close", () => {
  // the details of another domain may be open by now
  if (by("more").open) return;
  let was = domains.get(opened);
  opened = null;
  while (was && isHidden(was)) was = domains.get(was.parent);
  if (was) enter(was.at.top);
});
