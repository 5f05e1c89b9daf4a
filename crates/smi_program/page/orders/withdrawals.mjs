// Withdrawing an order that waits, and what the console says if it can't be withdrawn any more.

import { withdrawals } from "./given.mjs";
import { send, tellGiven } from "./giving.mjs";
import { signed } from "./naming.mjs";

/** The orders that this page withdraws, by their numbers, until it knows what became of that.
 * @type {Map<number, string>} */
const withdrawing = new Map();

/** Withdraws an order that waits.
 * @param {number} number @param {string} order */
export async function withdraw(number, order) {
  if (withdrawing.has(number)) return;
  withdrawing.set(number, order);
  if (!await send(signed("withdraw " + number), "withdraw " + order)) withdrawing.delete(number);
}

/** Tells which orders have begun, so that they can't be withdrawn. */
export function tellBegun() {
  withdrawing.forEach((order, number) => {
    const it = withdrawals.find(({ line, waits }) => line === "withdraw " + number && !waits);
    if (!it) return;
    withdrawing.delete(number);
    if (it.answer === "begun " + number) tellGiven(order + " has begun and can't be withdrawn");
  });
}
