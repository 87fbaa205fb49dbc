// What the interpreter says of the word at the cursor, below the text. It is shown as an answer is, and is none of the cell.

import { ask } from "./talk.js";
import { make } from "./dom.js";
import { OutputView, outputShape } from "./output.js";

/** @typedef {import("./cell").CellView} CellView */

const WORD = /[^\W\d][\w.]*$/u;

/**
 * The word at the cursor, or in front of the bracket that is opened there; empty where there is none.
 * @type {(text: string, cursor: number) => string}
 */
export function wordAt(text, cursor) {
  const before = text.slice(0, cursor);
  const found = WORD.exec(before.replace(/\(\s*$/, ""))?.[0] ?? "";
  const rest = /\w$/.test(before) ? /^\w*/.exec(text.slice(cursor))?.[0] ?? "" : "";
  return (found + rest).replace(/\.+$/, "");
}

export class Help {
  constructor() {
    this.place = make("div", "help");
    this.place.setAttribute("role", "status");
    this.place.setAttribute("aria-label", "Help");
    /** @type {CellView | undefined} */
    this.view = undefined;
  }

  get isOpen() {
    return this.view !== undefined;
  }

  /** @type {(view: CellView) => Promise<void>} */
  async open(view) {
    const word = wordAt(view.text.value, view.text.selectionStart);
    this.close();
    this.show(view, `asking for help on ${word}`);
    const reported = await ask("help", { id: view.id, language: view.language, word });
    if (this.view !== view) return;
    if (reported.refused || !reported.output) this.show(view, `no help on ${word}: ${reported.says ?? reported.refused}`);
    else this.fill(reported.output);
  }

  /** @type {(view: CellView, says: string) => void} */
  show(view, says) {
    this.view = view;
    this.place.replaceChildren(make("p", "", says));
    if (this.place.parentElement !== view.box) view.parts.line.after(this.place);
  }

  /** @param {import("./types").Output} output */
  fill(output) {
    const box = outputShape();
    new OutputView(0, box).update({ ...output, isCut: false }, false);
    this.place.replaceChildren(box);
    this.place.scrollTop = 0;
  }

  close() {
    this.view = undefined;
    this.place.remove();
  }
}
