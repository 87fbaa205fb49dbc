// What the worksheet was: the list of its changes, and a look at it after any number of them. Looking writes nothing; "Restore" makes another worksheet.

import { changeOf, grouped } from "./changes.js";
import { byId, make, visible } from "./dom.js";
import { ask } from "./talk.js";
import { ThenView } from "./then.js";

/** @typedef {import("./types").Reply} Reply */

const dialog = () => byId("earlier-dialog", HTMLDialogElement);
const press = (/** @type {string} */ id, /** @type {() => unknown} */ does) => byId(id, HTMLButtonElement).addEventListener("click", does);
const enable = (/** @type {string} */ id, /** @type {boolean} */ isFit) => { byId(id, HTMLButtonElement).disabled = !isFit; };

export class Earlier {
  /**
   * @param {import("./then").Does["takeBack"]} takeBack
   * @param {() => string} nameOf the worksheet
   */
  constructor(takeBack, nameOf) {
    this.takeBack = takeBack;
    this.nameOf = nameOf;
    this.opening = "";
    this.count = 0; // of all changes
    /** @type {import("./changes").Change[]} */
    this.listed = []; // the newest first
    this.at = 0; // after which change the worksheet is shown
    this.goal = 0; // after which one it is to be shown: a key that is held down asks faster than looks come
    this.start = 0; // the place of the first cell that is shown
    /** @type {{at: number, place: number} | undefined} */
    this.wanted = undefined; // what is to be looked at when the look before has come
    this.isLooking = false;
    this.list = byId("earlier-list", HTMLElement);
    this.cells = byId("earlier-cells", HTMLElement);
    this.begin();
  }

  begin() {
    const at = byId("earlier-at", HTMLInputElement);
    press("earlier-close", () => dialog().close());
    press("earlier-newer", () => this.page(this.listed[0].at + 200));
    press("earlier-older", () => this.page(this.listed[this.listed.length - 1].first - 1));
    press("earlier-before", () => this.look(this.goal - 1));
    press("earlier-after", () => this.look(this.goal + 1));
    press("earlier-above", () => this.look(this.at, this.start - 1));
    press("earlier-below", () => this.look(this.at, this.start + this.cells.childElementCount));
    press("earlier-restore", () => this.restore());
    at.addEventListener("change", () => this.look(Number(at.value)));
    byId("earlier-name", HTMLInputElement).addEventListener("keydown", (event) => event.key === "Enter" && this.restore());
    this.list.addEventListener("keydown", (event) => this.key(event));
    this.list.addEventListener("click", (event) => {
      const item = event.target instanceof Element ? event.target.closest("li") : null;
      if (item) this.look(Number(item.dataset.at));
    });
    this.cells.addEventListener("click", (event) => this.follow(event));
  }

  /** @param {string} text */
  say(text) {
    byId("earlier-says", HTMLElement).textContent = visible(text);
  }

  /**
   * Asks, and tells why it was refused.
   * @type {(call: string, members: Record<string, unknown>) => Promise<Reply>}
   */
  async ask(call, members) {
    const reported = await ask(call, { opening: this.opening, ...members });
    this.say(reported.refused ? reported.says ?? reported.refused : "");
    return reported;
  }

  /**
   * Shows the list, and the worksheet after a change; after the last one where none is said.
   * @param {number} [at]
   */
  async open(at) {
    this.list.replaceChildren();
    this.cells.replaceChildren();
    this.listed = [];
    byId("earlier-made", HTMLElement).replaceChildren();
    dialog().showModal();
    this.say("the changes are read");
    if (!this.take(await this.ask("past", {}))) return;
    this.list.focus();
    await this.look(at ?? this.count);
  }

  // ---- the list

  /** @type {(reported: Reply) => boolean} */
  take(reported) {
    if (!reported.changes) return false;
    this.opening = reported.opening ?? "";
    this.count = reported.count ?? 0;
    this.listed = grouped(reported.changes.map(changeOf)).reverse();
    this.list.replaceChildren(...this.listed.map(({ first, at, words }) => {
      const item = make("li");
      item.id = `change-${at}`;
      item.dataset.at = String(at);
      item.setAttribute("role", "option");
      item.setAttribute("aria-selected", "false");
      item.append(make("b", "", String(at)), " ", words, first < at ? `, ${at - first + 1} times from ${first} on` : "");
      return item;
    }));
    const [first, last] = [this.listed[0]?.at ?? 0, this.listed.at(-1)?.first ?? 0];
    byId("earlier-shown", HTMLElement).textContent = `Changes ${last} to ${first} of ${this.count}, the newest first`;
    enable("earlier-newer", first < this.count);
    enable("earlier-older", last > 1);
    return true;
  }

  /**
   * Lists the changes up to this one.
   * @param {number} upTo
   */
  async page(upTo) {
    this.take(await this.ask("past", { upTo: Math.max(1, Math.min(upTo, this.count)) }));
    this.choose();
  }

  /** @param {KeyboardEvent} event */
  key(event) {
    const by = { ArrowDown: 1, ArrowUp: -1, PageDown: 10, PageUp: -10, Home: 0, End: 0 }[event.key];
    if (by === undefined || event.ctrlKey || event.altKey || event.metaKey) return;
    event.preventDefault();
    this.look(by === 0 ? (event.key === "Home" ? this.count : 1) : this.beside(by));
  }

  /**
   * The change that stands so many lines below that which is looked at, or after the end of the list.
   * @type {(by: number) => number}
   */
  beside(by) {
    const { listed } = this, place = listed.findIndex((one) => this.has(one, this.goal));
    const [first, last] = [listed[0], listed.at(-1)];
    if (!first || !last || place < 0) return this.goal - by;
    return listed[place + by]?.at ?? (by > 0 ? Math.max(1, last.first - 1) : first.at + 1);
  }

  /** @type {(one: import("./changes").Change, at: number) => boolean} */
  has(one, at) {
    return one.first <= at && at <= one.at;
  }

  /** Marks the change that is looked at, where it is in the list. */
  choose() {
    this.list.querySelector("[aria-selected=true]")?.setAttribute("aria-selected", "false");
    const item = this.list.querySelector(`#change-${this.listed.find((one) => this.has(one, this.at))?.at ?? 0}`);
    item?.setAttribute("aria-selected", "true");
    item?.scrollIntoView({ block: "nearest" });
    this.list.setAttribute("aria-activedescendant", item?.id ?? "");
  }

  // ---- the look

  /**
   * Looks at the worksheet after so many changes: at the cells around the one that was changed, or at those from a place on. While a look is on its
   * way the last one that is wanted waits for it.
   * @type {(at: number, place?: number) => Promise<void>}
   */
  async look(at, place = -1) {
    this.goal = Math.max(0, Math.min(Math.floor(at) || 0, this.count));
    this.wanted = { at: this.goal, place };
    if (this.isLooking) return;
    this.isLooking = true;
    while (this.wanted) await this.lookOnce();
    this.isLooking = false;
  }

  async lookOnce() {
    const { at, place } = this.wanted ?? { at: 0, place: 0 };
    this.wanted = undefined;
    if (at > 0 && !this.listed.some((one) => this.has(one, at))) await this.page(at + 100);
    const about = place < 0 ? this.listed.find((one) => this.has(one, at))?.id ?? 0 : 0;
    const reported = await this.ask("past_sheet", { at, about, place: Math.max(0, place) });
    if (reported.then && !this.wanted && dialog().open) this.show(at, reported, about);
  }

  /** @type {(at: number, reported: Reply, about: number) => void} */
  show(at, reported, about) {
    const does = { say: (/** @type {string} */ text) => this.say(text), takeBack: this.takeBack };
    this.at = at;
    this.start = reported.start ?? 0;
    const views = (reported.then ?? []).map((cell) => new ThenView(cell, { at, opening: this.opening }, does));
    this.cells.replaceChildren(...views.map((view) => view.box));
    const changed = this.cells.querySelector(`[data-of="${about}"]`);
    changed?.classList.add("changed");
    changed?.querySelector("header")?.append(make("strong", "", "this change"));
    this.cells.scrollTop = 0;
    changed?.scrollIntoView({ block: "nearest" });
    this.mark(views.length, reported.count ?? 0);
    this.choose();
  }

  /** @type {(shown: number, count: number) => void} */
  mark(shown, count) {
    const { at, start } = this, words = this.listed.find((one) => this.has(one, at))?.words;
    const isNow = at === this.count;
    byId("earlier-mark", HTMLElement).replaceChildren(make("strong", "", isNow ? "The worksheet as it was when this list was made" : "The past"),
      `: after change ${at} of ${this.count}${words ? `, ${words}` : ""}. Nothing here can be changed.`);
    byId("earlier-at", HTMLInputElement).value = String(at);
    byId("earlier-at", HTMLInputElement).max = String(this.count);
    byId("earlier-name", HTMLInputElement).value = `${this.nameOf()}-${at}`;
    const parts = byId("earlier-parts", HTMLElement);
    parts.hidden = shown === count;
    parts.querySelector("span")?.replaceChildren(`cells ${start + 1} to ${start + shown} of ${count} are shown`);
    if (count === 0) this.cells.replaceChildren(make("p", "", "There was no cell."));
    enable("earlier-before", at > 0);
    enable("earlier-after", !isNow);
    enable("earlier-above", start > 0);
    enable("earlier-below", start + shown < count);
  }

  /**
   * A link to a cell leads to that of then.
   * @param {MouseEvent} event
   */
  follow(event) {
    const link = event.target instanceof Element ? event.target.closest("a[href^='#cell-']") : null;
    if (!link) return;
    event.preventDefault();
    event.stopPropagation();
    const id = link.getAttribute("href")?.slice("#cell-".length);
    this.cells.querySelector(`[data-of="${Number(id)}"]`)?.scrollIntoView({ block: "start" });
  }

  // ---- as a worksheet of its own

  async restore() {
    const made = byId("earlier-made", HTMLElement), name = byId("earlier-name", HTMLInputElement).value;
    const { at } = this, reported = await this.ask("past_restore", { at, name });
    if (reported.name === undefined) return;
    this.say(`${reported.name} was made: it is the worksheet after change ${at}`);
    const link = make("a", "", `Open ${visible(reported.name)}`);
    link.href = `../${encodeURIComponent(reported.name)}/`;
    made.replaceChildren(byId("list", HTMLAnchorElement).hidden ? `open it by tmhost-notebook ${visible(reported.name)}` : link);
  }
}
