// What a cell had before: texts, and answers that an edit or an evaluation took away.

import { button, byId, make, visible } from "./dom.js";
import { ask } from "./talk.js";
import { ThenView } from "./then.js";

/** @typedef {import("./cell").CellView} CellView */

const AT_ONCE = 10; // that are shown
const ASKED_AT_ONCE = 50;
/** @type {Record<string, string>} */
const WORDS = { new: "it was made with this text", set: "it got this text", answered: "it got this answer", lost: "it got no answer to this text" };
const dialog = () => byId("before-dialog", HTMLDialogElement);
const more = () => byId("before-more", HTMLButtonElement);

export class Before {
  /**
   * @param {import("./then").Does["takeBack"]} takeBack
   * @param {(at: number) => unknown} look shows the worksheet after so many changes
   */
  constructor(takeBack, look) {
    this.takeBack = takeBack;
    this.look = look;
    this.id = 0;
    this.opening = "";
    /** @type {[number, string][]} */
    this.left = []; // versions that aren't shown yet
    this.newer = ""; // the text after those that are left
    this.turn = 0; // of which one the list is: another one may be opened while its parts come
    this.list = byId("before-list", HTMLElement);
    byId("before-close", HTMLButtonElement).addEventListener("click", () => dialog().close());
    more().addEventListener("click", () => this.more());
    dialog().addEventListener("close", () => (this.turn += 1));
  }

  /** @param {string} text */
  say(text) {
    byId("before-says", HTMLElement).textContent = visible(text);
  }

  /** @param {CellView} view */
  async open(view) {
    const turn = (this.turn += 1), of = view.isProse ? "prose" : "cell";
    this.list.replaceChildren();
    this.left = [];
    more().hidden = true;
    byId("before-title", HTMLElement).textContent = `Before: ${of} ${view.id}`;
    byId("before-mark", HTMLElement).textContent = "";
    dialog().showModal();
    this.say("its changes are read");
    while (view.saving) await view.saving; // so that the text that it has now isn't one of before
    const reported = await ask("past_cell", { id: view.id });
    if (turn !== this.turn) return;
    this.say(reported.refused ? reported.says ?? reported.refused : "");
    if (!reported.versions) return;
    this.id = view.id;
    this.opening = reported.opening ?? "";
    this.left = reported.versions;
    this.newer = view.base;
    const many = (reported.count ?? 0) > this.left.length ? ` Of ${reported.count} texts and answers the newest ${this.left.length} are looked at.` : "";
    byId("before-mark", HTMLElement).replaceChildren(make("strong", "", "The past"),
      `: what this ${of} had, the newest first; of a text that was typed on, its end.${many} Nothing here can be changed.`);
    await this.more();
    if (this.list.childElementCount === 0 && more().hidden) this.say(`this ${of} had no other text and no other answer since the last checkpoint`);
  }

  /** Shows some more, one after the other. A text that the next one begins with was typed on: it isn't shown. */
  async more() {
    const { turn, id, opening } = this, hadFocus = document.activeElement === more();
    more().hidden = true;
    for (let asked = 0, shown = 0; shown < AT_ONCE && asked < ASKED_AT_ONCE && this.left.length > 0; asked += 1) {
      const [[at, what]] = this.left.splice(0, 1);
      const reported = await ask("past_field", { opening, at, id });
      if (turn !== this.turn) return;
      const [cell] = reported.then ?? [];
      const isTypedOn = cell && cell.state === "empty" && this.newer.startsWith(cell.input);
      this.newer = cell?.input ?? "";
      if (isTypedOn) continue;
      const box = this.versionOf(at, what, reported);
      this.list.append(box);
      if (shown === 0 && hadFocus) /** @type {HTMLElement | null} */ (box.querySelector("button"))?.focus();
      shown += 1;
    }
    more().hidden = this.left.length === 0;
  }

  /** @type {(at: number, what: string, reported: import("./types").Reply) => HTMLElement} */
  versionOf(at, what, reported) {
    const { opening } = this, part = make("section");
    const head = make("h3", "then-when", `After change ${at}: ${WORDS[what] ?? what}`);
    const [cell] = reported.then ?? [];
    const look = button("lookThen", "The worksheet of then", `Show the worksheet after change ${at}`);
    look.addEventListener("click", () => {
      dialog().close();
      this.look(at);
    });
    part.append(head);
    if (!cell) {
      part.append(make("p", "", reported.says ?? reported.refused ?? "it can't be shown"));
      return part;
    }
    const view = new ThenView(cell, { at, opening }, { say: (text) => this.say(text), takeBack: this.takeBack });
    view.box.querySelector(".then-bar")?.append(look);
    part.append(view.box);
    return part;
  }
}
