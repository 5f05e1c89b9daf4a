// The entries of the history (GET /api/history), and where each is found that speaks of an object.

/** @typedef {{number: number, at: number, text: string, words: string[], since?: number}} Entry
 * What was seen, and when (UTC, ms). With `since` the screen notes at the first look of a day what is so already, and
 * since when: its words are those of the entry that told it. */
/** @typedef {{count: number, saved: number, after: number, upto: number, oldest?: number}} Head
 * The first line of an answer. An older screen tells no `oldest`: the time of the oldest entry, 0 if there is none. */
/** @typedef {{list: Entry[], of: Map<string, Entry[]>}} Book All entries by their numbers, and those of each key. */
/** @typedef {import("../model.mjs").Holder} Holder */

/** Reads an answer. Its lines are parsed as one array, because that is several times as quick as one by one.
 * @param {string} text @returns {{head: Head, list: Entry[]}} */
export function readAnswer(text) {
  const [head, ...list] = JSON.parse("[" + text.trimEnd().replaceAll("\n", ",") + "]");
  list.forEach((/** @type {Entry} */ it) => {
    const words = it.text.split(" "), isSince = words[0] === "since";
    it.words = isSince ? words.slice(2) : words;
    if (isSince) it.since = Number(words[1]);
  });
  return { head, list };
}

/** Returns the keys under which an entry is found.
 * @param {Entry} entry @returns {string[]} */
function keysOf({ words: [kind, first, second], since }) {
  if (kind === "board") return ["board " + first];
  // who tells a record is heard, but a record that is known already was not told again
  if (kind === "record") return since === undefined ? ["record " + first, "sign " + first] : ["record " + first];
  if (kind === "silent" || kind === "heard") return ["sign " + first];
  if (kind === "given") return ["order " + first, "given"];
  if (kind === "ended") return ["order " + first];
  return kind === "acknowledged" ? ["acknowledged " + first + " " + second] : [];
}

/** Returns a book of entries, which are sorted by their numbers.
 * @param {Entry[]} list @returns {Book} */
export function bookOf(list) {
  const of = new Map();
  list.forEach((it) => keysOf(it).forEach((key) => {
    const same = of.get(key);
    if (same) same.push(it); else of.set(key, [it]);
  }));
  return { list, of };
}

/** Returns the book of two, of which all of the first one is older.
 * @param {Book} early @param {Book} late @returns {Book} */
export function joinBooks(early, late) {
  const of = new Map(early.of);
  late.of.forEach((list, key) => of.set(key, (of.get(key) || []).concat(list)));
  return { list: early.list.concat(late.list), of };
}

/** @param {Book} book @param {string} key */
export const entriesOf = (book, key) => book.of.get(key) || [];

/** Returns how many entries are at the front of which something holds. It holds of none after them.
 * @param {Entry[]} list @param {(it: Entry) => boolean} holds */
export function countFront(list, holds) {
  let low = 0, high = list.length;
  while (low < high) {
    const middle = (low + high) >> 1;
    if (holds(list[middle])) low = middle + 1; else high = middle;
  }
  return low;
}

/** Returns the last entry up to a number, if any.
 * @param {Entry[]} list @param {number} number @returns {Entry | undefined} */
export const lastUpTo = (list, number) => list[countFront(list, (it) => it.number <= number) - 1];

/** Returns what a `record` entry says.
 * @param {Entry} entry */
export function recordIn({ words: [, , kind, ...more] }) {
  /** @type {Holder} */
  const holder = kind === "operator" ? { operator: more[0] } : kind === "domain" ? { domain: more[0] } : null;
  const [epoch, last, work, outcome] = holder ? more.slice(1) : more;
  return { holder, epoch: Number(epoch), last: Number(last), busy: work === "busy", outcome: Number(outcome) };
}

/** Returns what a `record` entry says that the one before it did not say: another holder, and another command or that
 * it has ended. If there is none before it, all that it says is new.
 * @param {Entry} entry @param {Entry | undefined} before */
export function newsOf(entry, before) {
  const is = recordIn(entry), was = before && recordIn(before);
  const isHeldOn = !!was && JSON.stringify(was.holder) === JSON.stringify(is.holder) &&
    (is.holder === null || was.epoch === is.epoch);
  const isNoNews = !!was && is.last === was.last && is.busy === was.busy;
  return { ...is, hasHolder: !isHeldOn, hasCommand: is.last > 0 && !isNoNews };
}

/** Returns the entry before one under its key, if any.
 * @param {Book} book @param {Entry} entry */
export const beforeIt = (book, entry) => lastUpTo(entriesOf(book, keysOf(entry)[0]), entry.number - 1);

/** Returns since when what an entry says is so.
 * @param {Entry} entry */
export const sinceOf = (entry) => entry.since ?? entry.at;

/** Returns true if something has happened with an entry. The screen tells each day what is so already, and which
 * stations are silent still.
 * @param {Book} book @param {Entry} entry */
export function isNews(book, entry) {
  if (entry.since !== undefined) return false;
  if (entry.words[0] !== "silent") return true;
  const before = beforeIt(book, entry);
  return !before || before.words[0] !== "silent";
}

/** Returns the entry with which an order was given that an `ended` entry is of, if it is known.
 * @param {Book} book @param {Entry} entry */
export function givenOf(book, entry) {
  const list = entriesOf(book, "order " + entry.words[1]), last = countFront(list, (it) => it.number <= entry.number);
  // numbers of orders begin again with the screen, so that it is the last one before
  return list.slice(0, last).reverse().find((it) => it.words[0] === "given");
}

/** Returns true if an entry names one of these. The end of an order is of what the order named.
 * @param {Book} book @param {Entry} entry @param {Set<string> | null} names all if it is null */
export function isAbout(book, entry, names) {
  if (names === null || entry.words.some((word) => names.has(word))) return true;
  const order = entry.words[0] === "ended" ? givenOf(book, entry) : undefined;
  return !!order && order.words.some((word) => names.has(word));
}
