// All cells of the page, in their order, and which of them is the selected one.

import { byId, make } from "./dom.js";
import { CellView } from "./cell.js";
import { Choice } from "./choice.js";
import { inIdleMoments } from "./idle.js";
import { showPartial } from "./partial.js";
import { toolbarOf } from "./toolbar.js";

/** @typedef {import("./types").Message} Message */

const AT_ONCE = 200; // new cells that get their parts before they are in the page
const REPORTED_WITHIN = 5_000; // milliseconds until the server reports what was done

/**
 * Waits until a cell has come or gone.
 * @type {(waiting: Map<number, (() => void)[]>, id: number) => Promise<void>}
 */
const reported = (waiting, id) => new Promise((done) => {
  waiting.set(id, [...(waiting.get(id) ?? []), done]);
  setTimeout(done, REPORTED_WITHIN);
});

export class Cells {
  /** @param {import("./cell").Page} page */
  constructor(page) {
    this.page = page;
    this.place = byId("cells", HTMLElement);
    /** @type {Map<number, CellView>} */
    this.views = new Map();
    /** @type {number[]} */
    this.order = [];
    this.server = "";
    this.toolbar = toolbarOf();
    /** @type {CellView | undefined} */
    this.selected = undefined;
    this.choice = new Choice(this);
    /** @type {Map<number, (() => void)[]>} */
    this.awaited = new Map();
    /** @type {Map<number, (() => void)[]>} */
    this.leaving = new Map();
  }

  // ---- what the server tells

  /** @param {Message} message */
  hear(message) {
    const isOther = message.server !== undefined && message.server !== this.server;
    this.server = message.server ?? this.server;
    if (message.isWhole) for (const view of this.views.values()) view.begin(isOther);
    /** @type {CellView[]} */
    const made = [];
    for (const cell of message.cells ?? []) {
      const view = this.views.get(cell.id);
      const before = view?.cell.state ?? "";
      if (view) view.update(cell, message.at);
      if (view && !message.isWhole) this.page.news.hear(view.cell, before);
      if (!view) made.push(new CellView(this.page, cell, message.at, message.marks?.[cell.id] ?? [false, false]));
    }
    for (const view of made) this.views.set(view.id, view);
    this.grow(made);
    this.showPartials(message);
    const order = message.order ?? this.orderAfter(message);
    if (order) this.arrange(order);
    for (const [id, mark] of Object.entries(message.marks ?? {})) this.views.get(Number(id))?.takeMark(mark);
    if (this.selected) this.toolbar.show(this.selected);
    for (const cell of message.cells ?? []) {
      this.awaited.get(cell.id)?.forEach((done) => done());
      this.awaited.delete(cell.id);
    }
  }

  /**
   * Has new cells get their parts: of many the first ones, those that come into view, and the others in idle moments, so that a long page is there at once.
   * @param {CellView[]} made
   */
  grow(made) {
    for (const view of made.slice(0, AT_ONCE)) view.grow();
    inIdleMoments(made.slice(AT_ONCE), (view) => this.views.get(view.id) === view && view.grow());
  }

  /** All cells get their parts, as for what the browser looks through. */
  growAll() {
    for (const view of this.views.values()) view.grow();
  }

  /** All texts are in colours, as for paper, where no page ends within a text area. */
  paintAll() {
    this.growAll();
    for (const view of this.views.values()) if (!view.isProse || view.box.classList.contains("editing")) view.paint();
  }

  /**
   * What isn't an answer yet goes where its cell is no longer evaluated.
   * @param {Message} message
   */
  showPartials({ cells = [], partial = {}, isWhole }) {
    if (isWhole) for (const view of this.views.values()) showPartial(view, null);
    for (const { id } of cells) if (this.views.get(id)?.cell.state !== "running") showPartial(this.views.get(id), null);
    for (const [id, reported] of Object.entries(partial)) showPartial(this.views.get(Number(id)), reported);
  }

  /**
   * The order of the cells after some changes of it, if there are any.
   * @type {(message: Message) => number[] | undefined}
   */
  orderAfter({ placed = [], gone = [] }) {
    if (placed.length + gone.length === 0) return undefined;
    const moved = new Set([...gone, ...placed.map(([id]) => id)]);
    const order = this.order.filter((id) => !moved.has(id));
    for (const [id, before] of placed) order.splice(before ? order.indexOf(before) + 1 : 0, 0, id);
    return order;
  }

  /** @param {number[]} order */
  arrange(order) {
    const focused = document.activeElement;
    const staying = new Set(order);
    const place = this.selected ? this.order.slice(0, this.order.indexOf(this.selected.id)).filter((id) => staying.has(id)).length : -1;
    const isFocusLost = this.order.some((id) => !staying.has(id) && this.drop(id));
    for (const id of this.order) if (!staying.has(id)) this.drop(id);
    this.order = order;
    this.place.classList.toggle("none", order.length === 0);
    this.put(order.flatMap((id) => this.views.get(id)?.box ?? []));
    if (this.selected === undefined && order.length) this.select(this.at(Math.max(0, Math.min(place, order.length - 1))), isFocusLost);
    else if (focused instanceof HTMLElement && focused.isConnected && focused !== document.activeElement) focused.focus({ preventScroll: true });
    this.choice.show();
  }

  /**
   * Takes a cell that was removed out of the page; true where it had the focus.
   * @type {(id: number) => boolean}
   */
  drop(id) {
    const view = this.views.get(id);
    if (!view) return false;
    const hadFocus = view.box.contains(document.activeElement);
    if (view.isDraft) this.page.note(`cell ${id} was removed in another page; what was not saved of it: ${view.value}`);
    view.box.remove();
    this.views.delete(id);
    this.leaving.get(id)?.forEach((done) => done());
    this.leaving.delete(id);
    if (this.selected === view) this.selected = undefined;
    return hadFocus;
  }

  /**
   * Puts boxes in this order, and moves as few as it can, so that a long page doesn't stand still.
   * @param {HTMLElement[]} boxes
   */
  put(boxes) {
    let next = this.place.firstElementChild;
    if (!next) this.place.append(...boxes); // all at once
    if (!next) return;
    for (const box of boxes) {
      if (next !== box && next?.nextElementSibling === box) next = box; // the one between has another place, and comes to it
      if (next === box) next = next.nextElementSibling;
      else this.place.insertBefore(box, next);
    }
  }

  // ---- which one

  /** @type {(place: number) => CellView | undefined} */
  at(place) {
    return this.views.get(this.order[place]);
  }

  /** @type {(view: CellView | undefined, by: number) => CellView | undefined} */
  beside(view, by) {
    let place = view ? this.order.indexOf(view.id) : -1;
    if (place < 0) return undefined;
    do place += by; while (this.at(place)?.box.classList.contains("away")); // in a section that is folded
    return this.at(place);
  }

  /** @type {(node: EventTarget | null) => CellView | undefined} */
  of(node) {
    const box = node instanceof Element ? node.closest(".cell") : null;
    return box ? this.views.get(Number(box.id.slice(5))) : undefined;
  }

  /** @type {(view: CellView | undefined, withFocus?: boolean) => void} */
  select(view, withFocus = true) {
    if (!view) return;
    if (this.selected !== view) {
      this.choice.drop();
      this.leave();
      this.selected = view;
      view.box.classList.add("selected");
      view.box.tabIndex = 0;
      this.toolbar.show(view);
    }
    if (withFocus) {
      view.box.focus({ preventScroll: true });
      view.box.scrollIntoView({ block: "nearest" });
    }
  }

  leave() {
    const { selected } = this;
    if (!selected) return;
    selected.box.classList.remove("selected");
    selected.box.tabIndex = -1;
  }

  /** @param {CellView | undefined} view */
  edit(view) {
    if (!view) return;
    this.select(view, false);
    view.box.classList.add("editing");
    view.text.focus();
    view.text.scrollIntoView({ block: "nearest" });
  }

  /**
   * The cell with this number, when it is in the page.
   * @type {(id: number | undefined) => Promise<CellView | undefined>}
   */
  async whenThere(id) {
    if (id === undefined) return undefined;
    if (!this.views.has(id)) await reported(this.awaited, id);
    return this.views.get(id);
  }

  /**
   * Waits until these cells are in the page no more: a key that is for the selected cell isn't for one of them then.
   * @param {number[]} ids
   */
  async whenGone(ids) {
    await Promise.all(ids.filter((id) => this.views.has(id)).map((id) => reported(this.leaving, id)));
  }

  /** @type {() => CellView[]} */
  inOrder() {
    return this.order.flatMap((id) => this.views.get(id) ?? []);
  }
}

/** The line that stands where there are no cells. */
export function emptyLine() {
  return make("p", "empty", "There are no cells yet. A new cell asks for its interpreter first; prose needs none.");
}
