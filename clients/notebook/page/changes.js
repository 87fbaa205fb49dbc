// The changes of a worksheet in plain words; `tmhost history` writes them.

import { REASONS } from "./said.js";

/**
 * A change: its number, what it was, and which cell it was of, 0 where it was of none. Of several, `first` is the number of the first one.
 * @typedef {{first: number, at: number, what: string, words: string, id: number}} Change
 */

/** @type {Record<string, (rest: string[]) => string>} */
const WORDS = {
  session: ([name]) => `session ${name} was made`,
  new: ([id, session]) => `cell ${id} was made, of session ${session}`,
  set: ([id]) => `cell ${id} got another text`,
  eval: ([id]) => `cell ${id} was asked, or cleared`,
  answered: ([id]) => `cell ${id} got an answer`,
  lost: ([id, reason]) => `cell ${id} got no answer: ${REASONS[reason] ?? reason}`,
  move: ([id, after]) => (after === "0" ? `cell ${id} was moved to the front` : `cell ${id} was moved after cell ${after}`),
  remove: ([id]) => `cell ${id} was removed`,
  ids: ([next]) => `the next new cell is number ${next}`,
};
const OF_NONE = ["session", "ids"];

/** @type {(line: string) => Change} */
export function changeOf(line) {
  const [at, what, ...rest] = line.split(" ");
  const words = Object.hasOwn(WORDS, what) ? WORDS[what](rest) : [what, ...rest].join(" ");
  return { first: Number(at), at: Number(at), what, words, id: OF_NONE.includes(what) ? 0 : Number(rest[0]) || 0 };
}

/**
 * Changes of a cell's text that follow one another, as while it is typed, are one.
 * @type {(changes: Change[]) => Change[]}
 */
export function grouped(changes) {
  /** @type {Change[]} */
  const found = [];
  for (const one of changes) {
    const last = found.at(-1), isTyped = last?.what === "set" && one.what === "set" && last.id === one.id;
    if (isTyped) found.pop();
    found.push(isTyped ? { ...one, first: last.first } : one);
  }
  return found;
}
