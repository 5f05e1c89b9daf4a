// The orders that the screen knows of, who orders here, and what an order is about.
//
// The screen tells lines that withdraw an order among the orders. Here they are apart, because they have no operator.

/** @typedef {{number: number, line: string, by: string | null, seconds: number, waits: boolean, answer: string | null,
 *   code: number | null, words: string | null}} Order An order (docs/FORMATS.md, "Orders from the page"). */

// About how many domains the orders of one operator may wait at once.
export const LANES = 4;

// Who orders; the orders of this screen and the lines that withdraw some of them, the oldest first; and whether there
// is a connection with the console.
export let who = "";
/** @type {Order[]} */
export let given = [];
/** @type {Order[]} */
export let withdrawals = [];
export let hasConsole = false;
/** The numbers of those that this page gave.
 * @type {Set<number>} */
export const found = new Set();

/** @param {string} name */
export function choose(name) { who = name; }
/** @param {Order} it */
const isWithdrawal = (it) => it.line.startsWith("withdraw ");
/** @param {Order[]} lines */
export function learn(lines) {
  given = lines.filter((it) => !isWithdrawal(it));
  withdrawals = lines.filter(isWithdrawal);
}
/** @param {boolean} is */
export function connect(is) { hasConsole = is; }

/** Returns the words of an order: its operator, its verb, the domain that it is about, and more.
 * @param {Order} it */
export const wordsOf = (it) => it.line.split(" ").slice(1);
/** @param {Order} it */
export const operatorOf = (it) => wordsOf(it)[0];
/** @param {Order} it */
export const domainOf = (it) => wordsOf(it)[2];
/** Returns the words of an order without its operator.
 * @param {Order} it */
export const orderOf = (it) => wordsOf(it).slice(1).join(" ");
/** Returns who has given an order, as it follows the order's words; "" if nobody said so.
 * @param {Order} it */
export const byWhom = (it) => it.by ? " by " + it.by : "";
/** Returns true if somebody wanted to withdraw an order, and was told that it has begun.
 * @param {Order} it */
export const hasBegun = (it) => withdrawals.some(({ answer }) => answer === "begun " + it.number);
/** Returns true if an order holds up later ones: it waits, and is no question.
 * @param {Order} it */
const holdsUp = (it) => it.waits && wordsOf(it)[1] !== "ask";

// What an operator's orders wait for at the node: those about one domain keep their order, and those about different
// domains don't wait for each other, as long as there are lanes. A question has a lane of its own.

/** Returns the orders of an operator that hold up later ones, the oldest first; only those before a number, if any.
 * @param {string} name @param {number} [before] */
export const waitingOf = (name, before = Infinity) =>
  given.filter((it) => holdsUp(it) && operatorOf(it) === name && it.number < before);

/** Returns the orders among these that one about a domain waits for: those about that domain, or one about each other
 * domain if all lanes have one.
 * @param {Order[]} orders @param {string} domain */
export function waitedFor(orders, domain) {
  const same = orders.filter((it) => domainOf(it) === domain);
  const first = orders.filter((it, at) => orders.findIndex((o) => domainOf(o) === domainOf(it)) === at);
  return same.length ? same : first.length >= LANES ? first.slice(0, LANES) : [];
}

/** Returns the order that an order waits for, if any.
 * @param {Order} it @returns {Order | undefined} */
export const firstBefore = (it) =>
  holdsUp(it) ? waitedFor(waitingOf(operatorOf(it), it.number), domainOf(it))[0] : undefined;
