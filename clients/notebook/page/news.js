// What is read out: answers as they come, one with its text, of many how many there are.

import { byId, visible } from "./dom.js";

/** @typedef {import("./types").Cell} Cell */

const REPORTED_AFTER = 400; // milliseconds: what comes within it is reported together
const LONGEST = 300; // characters of an answer

export class News {
  constructor() {
    this.place = byId("news", HTMLElement);
    /** @type {Map<number, string>} */
    this.answered = new Map();
    /** @type {ReturnType<typeof setTimeout> | undefined} */
    this.timer = undefined;
  }

  /**
   * A cell had a state and has another one.
   * @type {(cell: Cell, before: string) => void}
   */
  hear(cell, before) {
    const waited = before === "running" || before === "queued";
    if (cell.state === "running" && before !== "running") this.answered.set(cell.id, "is evaluated");
    else if (waited && cell.state === "answered") this.answered.set(cell.id, `has its answer: ${answerOf(cell)}`);
    else if (waited && cell.state === "lost") this.answered.set(cell.id, `is lost: ${cell.reason}`);
    else return;
    this.timer ??= setTimeout(() => this.tell(), REPORTED_AFTER);
  }

  tell() {
    this.timer = undefined;
    const reported = [...this.answered];
    this.answered.clear();
    const lost = reported.filter(([, says]) => says.startsWith("is lost")).length;
    const over = reported.filter(([, says]) => !says.startsWith("is evaluated")).length;
    if (reported.length <= 2) this.place.textContent = reported.map(([id, says]) => `Cell ${id} ${says}`).join(". ");
    else this.place.textContent = `${over - lost} answers${lost ? `, ${lost} lost` : ""}`;
  }
}

/** @type {(cell: Cell) => string} */
function answerOf({ output }) {
  const text = visible((output?.parts ?? []).map((part) => part.tex ?? part.text ?? "").join(" ")).trim();
  return text.slice(0, LONGEST) || "no output";
}
