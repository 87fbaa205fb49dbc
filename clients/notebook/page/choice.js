// Which cells are chosen: the selected one, and all up to the one where the choice was begun.

import { byId } from "./dom.js";

/** @typedef {import("./cell").CellView} CellView */
/** @typedef {import("./cells").Cells} Cells */

export class Choice {
  /** @param {Cells} cells */
  constructor(cells) {
    this.cells = cells;
    /** @type {number | undefined} */
    this.anchor = undefined; // where it was begun
    /** @type {CellView[]} */
    this.shown = [];
  }

  /** The cells that are chosen, in their order; the selected one where no others are. */
  get views() {
    const { selected, order } = this.cells;
    if (!selected) return [];
    const places = [selected.id, this.anchor ?? selected.id].map((id) => order.indexOf(id)).sort((a, b) => a - b);
    return places[0] < 0 ? [selected] : order.slice(places[0], places[1] + 1).flatMap((id) => this.cells.views.get(id) ?? []);
  }

  get areSeveral() {
    return this.anchor !== undefined && this.anchor !== this.cells.selected?.id;
  }

  /**
   * Chooses all cells between the selected one and another, which is selected then.
   * @type {(view: CellView | undefined) => void}
   */
  extend(view) {
    const { selected } = this.cells;
    if (!view || !selected) return;
    const anchor = this.anchor ?? selected.id;
    this.cells.select(view);
    this.anchor = anchor;
    this.show();
  }

  all() {
    const { cells } = this;
    cells.select(cells.at(cells.order.length - 1));
    this.anchor = cells.order[0];
    this.show();
  }

  drop() {
    if (this.anchor === undefined) return;
    this.anchor = undefined;
    this.show();
  }

  /** Shows it, also where cells have other places now. */
  show() {
    if (this.anchor !== undefined && !this.cells.views.has(this.anchor)) this.anchor = undefined;
    const views = this.areSeveral ? this.views : [];
    if (views.length === 0 && this.shown.length === 0) return;
    const staying = new Set(views);
    for (const view of this.shown) if (!staying.has(view)) view.box.classList.remove("chosen");
    for (const view of views) view.box.classList.add("chosen");
    if (views.length > 0 && views.length !== this.shown.length) this.cells.page.note(`${views.length} cells are chosen`);
    if (views.length === 0 && byId("note", HTMLElement).textContent === `${this.shown.length} cells are chosen`) this.cells.page.note("");
    this.shown = views;
  }
}
