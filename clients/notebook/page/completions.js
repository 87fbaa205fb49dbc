// What can stand at the cursor, as a list below the text. It stands in the cell, and what an interpreter offers is text.

import { ask } from "./talk.js";
import { make, visible } from "./dom.js";

/** @typedef {import("./cell").CellView} CellView */

const MOST_SHOWN = 100;

export class Completions {
  constructor() {
    this.list = make("ul", "completions");
    this.list.setAttribute("role", "listbox");
    this.list.setAttribute("aria-label", "completions");
    this.list.id = "completions";
    this.list.addEventListener("mousedown", (event) => this.press(event));
    /** @type {CellView | undefined} */
    this.view = undefined;
    /** @type {string[]} */
    this.rest = [];
    this.place = 0;
  }

  get isOpen() {
    return this.view !== undefined;
  }

  /**
   * Asks for completions at the cursor of a cell, in its text as it stands on the page: it isn't saved by that, and keeps its output.
   * @type {(view: CellView) => Promise<void>}
   */
  async open(view) {
    const { selectionStart: cursor, value: text } = view.text;
    const isThere = () => view.text.value === text && view.text.selectionStart === cursor;
    view.page.note("asking for completions");
    const reported = await ask("complete", { id: view.id, text, cursor });
    view.page.note(reported.refused ? `no completions: ${reported.says}` : "");
    if (reported.refused || !isThere()) return;
    const rest = (reported.rest ?? []).filter((one) => one !== "");
    if (rest.length === 0) view.page.note("no completions");
    else if (rest.length === 1) insert(view, rest[0]);
    else this.show(view, visible(reported.root ?? ""), rest);
  }

  /** @type {(view: CellView, root: string, rest: string[]) => void} */
  show(view, root, rest) {
    this.view = view;
    this.rest = rest.slice(0, MOST_SHOWN);
    this.list.replaceChildren(...this.rest.map((one, place) => {
      const item = make("li", "", root + visible(one));
      item.id = `completion-${place}`;
      item.setAttribute("role", "option");
      return item;
    }));
    view.parts.line.after(this.list);
    view.text.setAttribute("aria-controls", this.list.id);
    this.choose(0);
  }

  /** @param {number} place */
  choose(place) {
    const count = this.rest.length;
    this.place = (place + count) % count;
    [...this.list.children].forEach((item, at) => item.setAttribute("aria-selected", String(at === this.place)));
    this.list.children[this.place].scrollIntoView({ block: "nearest" });
    this.view?.text.setAttribute("aria-activedescendant", `completion-${this.place}`);
  }

  close() {
    this.view?.text.removeAttribute("aria-activedescendant");
    this.view?.text.removeAttribute("aria-controls");
    this.view = undefined;
    this.list.remove();
  }

  take() {
    const { view } = this;
    this.close();
    if (view) insert(view, this.rest[this.place]);
  }

  /** @param {MouseEvent} event */
  press(event) {
    const place = [...this.list.children].indexOf(/** @type {Element} */ (event.target));
    event.preventDefault();
    if (place < 0) return;
    this.choose(place);
    this.take();
  }

  /**
   * Takes a key while the list is open; true where it was for the list.
   * @type {(event: KeyboardEvent) => boolean}
   */
  key(event) {
    const steps = { ArrowDown: 1, ArrowUp: -1, PageDown: 10, PageUp: -10 };
    const step = steps[/** @type {keyof typeof steps} */ (event.key)];
    if (step) this.choose(this.place + step);
    else if (event.key === "Enter" || event.key === "Tab") this.take();
    else if (event.key === "Escape") this.close();
    else return false;
    return true;
  }
}

/** @type {(view: CellView, text: string) => void} */
function insert(view, text) {
  const { selectionStart, selectionEnd } = view.text;
  view.text.setRangeText(text.replaceAll("\u2028", "\n"), selectionStart, selectionEnd, "end");
  view.typed();
}
