// A list of orders: what became of each, and a button that withdraws one that waits.

import { label, make, set, style } from "../dom.mjs";
import { withdraw } from "./withdrawals.mjs";

/** @typedef {{number: number, order: string, fate: string, edge: string, isFirm: boolean, names: string[]}} Row
 * `isFirm` says that it can't be withdrawn, and `names` are the domains that it is about. */

/** Makes the element of an order.
 * @param {Row} row */
function elementOf({ number, order }) {
  const one = { li: make("li"), fate: make("span"), off: make("button", "", "withdraw") };
  one.off.type = "button";
  label(one.off, "withdraw " + order);
  one.off.addEventListener("click", () => withdraw(number, order));
  one.li.append(make("b", "", order), one.fate, one.off);
  return one;
}

/** Returns what shows orders in a list. An element stays as long as its order is in the list, so that the keyboard
 * stays at a button.
 * @param {any} list @returns {(rows: Row[]) => void} */
export function lister(list) {
  /** What the list has of each order, by its number.
   * @type {Map<number, {li: any, fate: any, off: any}>} */
  const inList = new Map();
  return (rows) => {
    inList.forEach(({ li }, number) => {
      if (rows.some((row) => row.number === number)) return;
      li.remove();
      inList.delete(number);
    });
    rows.forEach((row, place) => {
      const one = inList.get(row.number) || elementOf(row);
      if (!inList.has(row.number)) list.insertBefore(one.li, list.children[place] || null);
      inList.set(row.number, one);
      set(one.fate, row.fate);
      style(one.li, "--c", row.edge);
      if (row.isFirm) one.off.remove();
    });
  };
}
