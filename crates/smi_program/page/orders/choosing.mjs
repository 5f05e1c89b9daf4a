// Who orders, and the buttons of a domain, greyed if the rules would refuse the order, with the reason.

import { opened } from "../details.mjs";
import { by, label, make, mark, set } from "../dom.mjs";
import { tree } from "../model.mjs";
import { deedsOf, whyNobody } from "./deeds.mjs";
import { choose, given, operatorOf, who } from "./given.mjs";
import { lister } from "./given_list.mjs";
import { confirm } from "./questions.mjs";

/** @typedef {import("../model.mjs").Operator} Operator */
/** @typedef {import("./deeds.mjs").Deed} Deed */

/** @type {[any, Deed][]} */
let buttons = [];
/** What lists orders in the details, once there are any.
 * @type {((rows: import("./given_list.mjs").Row[]) => void) | null} */
export let listHere = null;
// The operators that are offered, as a text.
let offered = "";

/** Greys the buttons that would be refused now. */
export function showButtons() {
  if (opened) buttons.forEach(([b, deed]) => {
    const why = whyNobody() || deed.why();
    if (b.title !== (why || deed.asked)) b.title = why || deed.asked;
    mark(b, "aria-disabled", String(!!why));
  });
}

/** Returns the buttons of a domain.
 * @param {import("../model.mjs").Domain} d */
export function ordersOf(d) {
  const box = make("section", "orders"), why = make("p"), list = make("ol", "given");
  label(list, "orders about " + d.name);
  listHere = lister(list);
  why.setAttribute("role", "status");
  box.setAttribute("aria-label", "orders");
  buttons = deedsOf(d).map((deed) => {
    const b = make("button", "", deed.name);
    b.type = "button";
    b.dataset.deed = deed.name;
    b.addEventListener("click", () => { set(why, whyNobody() || deed.why()); confirm(deed); });
    return [b, deed];
  });
  box.append(make("h3", "", "orders"), ...buttons.map(([b]) => b), why, list);
  showButtons();
  return box;
}

/** Returns the station of the console, or nothing before an answer has told it: it obeys its own operators alone. */
function consoleStation() {
  const it = given.find((one) => (one.answer || "").startsWith("told " + operatorOf(one) + " "));
  const operator = it && tree.operators.find((/** @type {Operator} */ o) => o.name === operatorOf(it));
  return operator ? operator.station : "";
}

/** Offers the operators of the console's station, or while that is not known those of each station. The one who is
 * chosen stays offered until somebody chooses. */
export function offerOperators() {
  const station = consoleStation();
  /** @type {Operator[]} */
  const list = tree.operators.filter((/** @type {Operator} */ o) =>
    !station || o.station === station || o.name === who);
  const text = JSON.stringify(list);
  if (text === offered) return;
  offered = text;
  const none = make("option", "", "nobody"), stations = [...new Set(list.map((o) => o.station))];
  none.value = "";
  by("operator").replaceChildren(none, ...stations.map((name) => {
    const group = make("optgroup");
    group.label = "station " + name;
    group.append(...list.filter((o) => o.station === name).map((o) => make("option", "", o.name)));
    return group;
  }));
  choose(list.some((o) => o.name === who) ? who : "");
  by("operator").value = who;
}

/** Offers the operators of another tree. */
export function offerAnew() { offered = ""; offerOperators(); }
