// What a cell in the page consists of, and how its states are shown.

import { button, make } from "./dom.js";
import { OutputView, outputShape } from "./output.js";

const FITS_ITSELF = CSS.supports("field-sizing", "content");
const LETTERS_IN_LINE = 80; // a guess

/** What is said of most cells: of the text and of the answer the class and the words, and the state of the cell. */
export const AT_FIRST = { text: ["saved", "saved"], answer: ["", ""], state: "answered", theirs: "" };

/**
 * @typedef {{head: HTMLElement, session: HTMLElement, textState: HTMLElement, answerState: HTMLElement, took: HTMLElement, line: HTMLElement,
 *   prompt: HTMLElement, text: HTMLTextAreaElement, output: OutputView}} Parts
 */

const SHAPE = shape();

/** A cell without its parts. A copy takes a fraction of the time in which the same is made part by part. */
export const emptyShape = () => /** @type {HTMLElement} */ (SHAPE.cloneNode(false));

function shape() {
  const box = make("section", "cell"), head = make("header"), line = make("div", "input"), text = make("textarea");
  box.tabIndex = -1;
  box.setAttribute("role", "group");
  const textState = make("span", "text-state", AT_FIRST.text[1]), answerState = make("span", "answer-state", AT_FIRST.answer[1]);
  textState.dataset.state = box.dataset.text = AT_FIRST.text[0];
  answerState.dataset.state = AT_FIRST.answer[0];
  box.dataset.state = AT_FIRST.state;
  head.append(make("span", "number"), make("bdi", "session"), textState, answerState, make("span", "took"));
  text.dir = "auto";
  text.spellcheck = false;
  text.tabIndex = -1; // Enter goes into it: Tab would not go on from there
  text.rows = 1;
  text.setAttribute("autocapitalize", "off");
  line.append(make("bdi", "prompt"), text);
  box.append(head, line, outputShape());
  return box;
}

/**
 * Puts its parts into a cell.
 * @type {(box: HTMLElement, id: number, isReadOnly: boolean) => Parts}
 */
export function partsOf(box, id, isReadOnly) {
  const [head, line, output] = childrenOf(/** @type {HTMLElement} */ (SHAPE.cloneNode(true)));
  box.prepend(head, line, output); // in front of what it may have by then, as what says that it is folded
  const [number, session, textState, answerState, took] = childrenOf(head);
  const prompt = childrenOf(line)[0], text = /** @type {HTMLTextAreaElement} */ (childrenOf(line)[1]);
  text.readOnly = isReadOnly;
  number.textContent = `#${id}`;
  text.setAttribute("aria-label", `Input of cell ${id}`);
  return { head, session, textState, answerState, took, line, prompt, text, output: new OutputView(id, output) };
}

/**
 * Says how a cell is where its name is read out. It does so in words of its own: to a browser what isn't seen has none.
 * @type {(box: HTMLElement, words: string[]) => void}
 */
export function describe(box, words) {
  const reported = words.filter(Boolean).join(", ");
  if (box.getAttribute("aria-description") !== reported) box.setAttribute("aria-description", reported);
}

/** What is said of a text that was changed elsewhere. */
export function conflictOf() {
  const box = make("div", "conflict", "This cell was given another text elsewhere: ");
  box.append(button("keepMine", "Keep this text", "Save the text that stands in the cell"), " ",
    button("takeTheirs", "Take the other", "Put the other text into the cell, and drop this one"), make("pre"));
  return box;
}

/**
 * Gives a text area as many rows as its text has, where the browser doesn't by itself.
 * @param {HTMLTextAreaElement} text
 */
export function fitRows(text) {
  if (FITS_ITSELF) return;
  const rows = text.value.split("\n").reduce((sum, line) => sum + Math.max(1, Math.ceil(line.length / LETTERS_IN_LINE)), 0);
  if (text.rows !== rows) text.rows = rows;
}

/** @type {(one: string[], other: string[]) => boolean} */
export const isOther = ([name, words], [otherName, otherWords]) => name !== otherName || words !== otherWords;

/** @type {(place: HTMLElement, state: string[]) => void} */
export function show(place, [name, words]) {
  place.textContent = words;
  place.dataset.state = name;
}

/** @type {(node: HTMLElement) => HTMLElement[]} */
const childrenOf = (node) => /** @type {HTMLElement[]} */ ([...node.children]);
