// Answers that are errors: how they are marked, and the box by which "Evaluate all" and "from here" stop at one.

import { byId, make, visible } from "./dom.js";

/** @typedef {import("./types").Output} Output */

const NAME = "stop at errors"; // in what the browser keeps of this page

/**
 * The text of an error.
 * @type {(text: string) => HTMLElement}
 */
export const errorOf = (text) => make("span", "error", visible(text));

/**
 * What is said above an answer that is an error, or has one: a word, so that it is read out, too.
 * @type {(box: HTMLElement, shown: Output | null) => void}
 */
export function markError(box, shown) {
  box.classList.toggle("failed", !!shown?.isError);
  box.querySelector(".error-mark")?.remove();
  if (shown?.isError) box.prepend(make("strong", "error-mark", "Error"));
}

/** Whether what is evaluated is to stop at an error. */
export const stopsAtErrors = () => byId("stop-at-errors", HTMLInputElement).checked;

/** Lets the box be as it was in this browser last. One that keeps nothing is as good as a new one. */
export function beginStopBox() {
  const box = byId("stop-at-errors", HTMLInputElement);
  try {
    box.checked = localStorage.getItem(NAME) === "yes";
    box.addEventListener("change", () => localStorage.setItem(NAME, box.checked ? "yes" : "no"));
  } catch {
    box.checked = false;
  }
}
