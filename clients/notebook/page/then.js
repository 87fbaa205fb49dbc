// A cell as it was: it can be looked at and copied, and its text taken back. Nothing in it is an element of the worksheet of today.

import { ask } from "./talk.js";
import { button, make, visible } from "./dom.js";
import { OutputView, outputShape, savePicture, showPicture } from "./output.js";
import { fillPictures } from "./reading.js";
import { REASONS } from "./said.js";
import { setInto } from "./setter.js";

/** @typedef {import("./types").Then} Cell */

/**
 * After which change it was so, and the opening of the worksheet in which that has this number.
 * @typedef {{at: number, opening: string}} When
 */

/**
 * What those who show it do: `say` tells people something, `takeBack` gives a cell of today the text of then.
 * @typedef {{say: (text: string) => void, takeBack: (cell: Cell, at: number) => unknown}} Does
 */

/** @type {(cell: Cell) => string} */
function stateOf({ isProse, state, reason, output }) {
  if (isProse) return "";
  if (state === "lost") return `no answer: ${REASONS[reason ?? ""] ?? reason}`;
  if (state !== "answered") return "no answer";
  return output?.length === 0 ? "evaluated: it had no output" : "answered";
}

/**
 * Puts a text on the system's clipboard; false where the browser doesn't.
 * @type {(text: string) => boolean}
 */
function copied(text) {
  let isDone = false;
  const give = (/** @type {ClipboardEvent} */ event) => {
    event.clipboardData?.setData("text/plain", text);
    event.preventDefault();
    event.stopImmediatePropagation();
    isDone = true;
  };
  document.addEventListener("copy", give, { capture: true });
  document.execCommand("copy");
  document.removeEventListener("copy", give, { capture: true });
  return isDone;
}

export class ThenView {
  /**
   * @param {Cell} cell
   * @param {When} when
   * @param {Does} does
   */
  constructor(cell, when, does) {
    this.cell = cell;
    this.when = when;
    this.does = does;
    this.box = make("article", "then");
    this.box.dataset.of = String(cell.id);
    this.box.setAttribute("aria-label", `${cell.isProse ? "Prose" : "Cell"} ${cell.id} as it was after change ${when.at}`);
    const output = outputShape();
    this.output = new OutputView(cell.id, output, (start) => this.piece(start));
    this.box.append(this.head(), this.input(), output, this.bar());
    this.output.update(cell.isProse ? null : cell.output, false);
    if (cell.isProse) this.showProse();
    this.box.addEventListener("click", (event) => this.click(event));
  }

  head() {
    const { cell } = this, head = make("header");
    const session = make("bdi", "session", cell.isProse ? "prose" : cell.session);
    head.append(make("span", "number", `#${cell.id}`), session, make("span", "then-state", stateOf(cell)));
    return head;
  }

  input() {
    const { cell } = this, line = make("div", "input"), text = make("pre", "then-text", visible(cell.input) || "(empty)");
    text.dir = "auto";
    line.append(make("bdi", "prompt", cell.isProse ? "" : visible(cell.prompt ?? "> ")), text);
    return line;
  }

  bar() {
    const { cell } = this, bar = make("div", "then-bar"), of = cell.isProse ? "prose" : "cell";
    bar.append(button("copyText", "Copy text", `Copy the text that ${of} ${cell.id} had`));
    if (cell.output?.length) bar.append(button("copyAnswer", "Copy answer", `Copy the answer that cell ${cell.id} had`));
    bar.append(cell.isThere ? button("takeBack", "Take the text back", `Give ${of} ${cell.id} the text of then; Z takes that back`)
      : button("takeBack", "Make it a new cell", `Make a new cell with the text that ${of} ${cell.id} had; it isn't there any more`));
    return bar;
  }

  async showProse() {
    const { cell } = this, reading = make("div", "reading");
    reading.dir = "auto";
    this.box.querySelector(".input")?.after(reading);
    if (cell.input.trim()) await setInto(reading, "markdown", cell.input);
    await fillPictures(reading);
  }

  /** @param {number} start */
  piece(start) {
    return ask("past_output", { ...this.when, id: this.cell.id, start });
  }

  /** All of the answer as text, also what isn't shown of it. */
  async answer() {
    const { output } = this.cell;
    let letters = [...output?.text ?? ""];
    while (output && letters.length < output.length) {
      const reported = await this.piece(letters.length);
      if (!reported.text) return undefined;
      letters = letters.concat([...reported.text]);
    }
    return letters.join("");
  }

  /** @type {(what: string, text: string | undefined) => void} */
  copy(what, text) {
    const isDone = text !== undefined && copied(text);
    this.does.say(isDone ? `${what} of cell ${this.cell.id} is on the clipboard` : "it could not be copied");
  }

  /** @param {MouseEvent} event */
  async click(event) {
    const node = event.target instanceof Element ? event.target.closest("button[data-do]") : null;
    if (!(node instanceof HTMLElement)) return;
    const what = node.dataset.do;
    if (what === "copyText") this.copy("the text", this.cell.input);
    else if (what === "copyAnswer") this.copy("the answer", await this.answer());
    else if (what === "takeBack") this.does.takeBack(this.cell, this.when.at);
    else if (what === "showMore") await this.output.showMore();
    else if (what === "savePicture") savePicture(node, `cell-${this.cell.id}-change-${this.when.at}`);
    else if (what === "showPicture") showPicture(node);
  }
}
