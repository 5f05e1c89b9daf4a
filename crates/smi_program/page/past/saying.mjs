// Entries in plain words.

import { givenOf, newsOf, beforeIt, recordIn } from "./entries.mjs";

/** @typedef {import("./entries.mjs").Entry} Entry */
/** @typedef {import("./entries.mjs").Book} Book */

// What a code means with which an order ends (docs/NUMBERS.md, "How an order ends"), in the words of the screen.
/** @type {Record<string, string>} */
const CODE_WORDS = { 0: "done", 1: "a domain on the way does not accept the action",
  2: "the target is not below the domain", 3: "the child is held and in that mode already", 4: "the child is not held",
  5: "another one holds the domain", 6: "a child on the way is not held or is manual",
  7: "a million commands were given to a child under one grant", 8: "ended, and how was not seen",
  9: "the domain's epochs are used up", 21: "the operator does not hold the domain",
  22: "a command on the domain is not answered yet",
  23: "the operator holds the domain already, or takes it or gives it back",
  24: "a million commands were given under this grant", 25: "the operator holds or waits for sixteen domains",
  26: "nothing of that name is there", 31: "the store did not save it", 32: "the station has stopped",
  33: "the node is out of memory" };

/** Returns who holds a domain after a `record` entry, in a word or two.
 * @param {Entry} entry */
export function holderWords(entry) {
  const holder = recordIn(entry).holder;
  return !holder ? "free" : holder.operator || "domain " + holder.domain;
}

/** @param {Entry} entry @param {Entry | undefined} before */
function recordWords(entry, before) {
  const name = entry.words[1], news = newsOf(entry, before), holder = holderWords(entry);
  return [...(news.hasHolder ? [name + (holder === "free" ? " is free" : " held by " + holder)] : []),
    ...(news.hasCommand ? ["command " + news.last + " of " + name +
      (news.busy ? " is at work" : " ended with " + news.outcome)] : [])].join(", ") || name + " is as before";
}

/** Returns who gave an order, and which.
 * @param {Entry | undefined} order @returns {[string, string]} */
export function orderIn(order) {
  const [, , verb, ...more] = order ? order.words : ["", "", ""];
  return verb === "order" ? [more[0], more.slice(1).join(" ")] : ["", [verb, ...more].join(" ")];
}

/** Returns how an order ended.
 * @param {Entry} entry */
export function endIn(entry) {
  const words = entry.words.slice(2), code = words[words.length - 1];
  // what the console says to a line that withdraws an order
  if (words.length === 2 && words[0] === "begun") return "it has begun and can't be withdrawn";
  if (words.length === 2 && words[0] === "withdrawn") return "done";
  if (words[0] !== "told" || !/^\d+$/.test(code)) return words.join(" ");
  return "ended with " + code + (CODE_WORDS[code] ? ": " + CODE_WORDS[code] : "");
}

/** Returns the words of an order with its operator, or its number if it is not known how it was given.
 * @param {Book} book @param {Entry} entry @param {string} number @returns {string} */
function orderWords(book, entry, number) {
  const order = givenOf(book, { ...entry, words: ["ended", number] }), [operator, which] = orderIn(order);
  return !order ? "order " + number : operator ? which + " of " + operator : withdrawalWords(book, order);
}

/** Returns which order was to be withdrawn.
 * @param {Book} book @param {Entry} order */
const withdrawalWords = (book, order) => "withdrawal of " + orderWords(book, order, order.words[3]);

/** @param {Book} book @param {Entry} entry */
function givenWords(book, entry) {
  const [operator, order] = orderIn(entry);
  return operator ? operator + " ordered " + order : withdrawalWords(book, entry) + " was asked for";
}

/** @param {Book} book @param {Entry} entry */
function endedWords(book, entry) {
  const end = endIn(entry);
  return orderWords(book, entry, entry.words[1]) + (end.startsWith("ended with ") ? " " : ": ") + end;
}

/** Returns an entry in plain words.
 * @param {Book} book @param {Entry} entry @returns {string} */
export function sayEntry(book, entry) {
  const [kind, first, second, third] = entry.words;
  if (kind === "board") return first + " is " + third;
  if (kind === "record") return recordWords(entry, beforeIt(book, entry));
  if (kind === "silent") return "station of " + first + " is silent";
  if (kind === "heard") return "station of " + first + " is heard again";
  if (kind === "given") return givenWords(book, entry);
  if (kind === "ended") return endedWords(book, entry);
  return kind === "acknowledged" ? third + " acknowledged " + first + " " + second : entry.text;
}
