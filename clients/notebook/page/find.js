// Find and replace over all cells. What is found is marked in the texts; what is replaced is one step, which can be taken back.

import { byId } from "./dom.js";

/** @typedef {import("./cell").CellView} CellView */
/** @typedef {import("./cells").Cells} Cells */
/** @typedef {import("./several").Several} Several */
/** @typedef {{view: CellView, start: number, end: number, found: RegExpExecArray}} Place */

const MOST = 10_000;

export class Find {
  /**
   * @param {Cells} cells
   * @param {Several} several
   */
  constructor(cells, several) {
    this.cells = cells;
    this.several = several;
    this.bar = byId("find", HTMLFormElement);
    this.wanted = byId("find-text", HTMLInputElement);
    this.other = byId("find-other", HTMLInputElement);
    this.isForm = byId("find-form", HTMLInputElement);
    this.hasCase = byId("find-case", HTMLInputElement);
    /** @type {Place[]} */
    this.places = [];
    this.at = -1;
    this.bar.addEventListener("submit", (event) => event.preventDefault());
    this.bar.addEventListener("input", () => this.search());
    this.bar.addEventListener("keydown", (event) => this.key(event));
  }

  open() {
    this.bar.hidden = false;
    const chosen = String(getSelection() ?? "");
    if (chosen && !chosen.includes("\n")) this.wanted.value = chosen;
    this.wanted.focus();
    this.wanted.select();
    this.search();
  }

  close() {
    const place = this.places[this.at];
    this.bar.hidden = true;
    this.places = [];
    this.mark();
    this.cells.select(place?.view ?? this.cells.selected);
  }

  /** @param {KeyboardEvent} event */
  key(event) {
    if (event.key === "Escape") this.close();
    else if (event.key === "Enter" && event.target instanceof HTMLInputElement) this.go(event.shiftKey ? -1 : 1);
    else return;
    event.preventDefault();
    event.stopPropagation();
  }

  /**
   * What is looked for; null where there is nothing, or no regular expression.
   * @returns {RegExp | null}
   */
  get form() {
    const { value } = this.wanted;
    const source = this.isForm.checked ? value : value.replace(/[.*+?^${}()|[\]\\]/g, "\\$&");
    try {
      return value ? new RegExp(source, this.hasCase.checked ? "gm" : "gim") : null;
    } catch {
      return null;
    }
  }

  /** Looks for it in each cell, and stays at the first one from the selected cell on. */
  search() {
    const { form } = this;
    this.places = form ? this.cells.inOrder().flatMap((view) => placesIn(view, form)).slice(0, MOST) : [];
    const selected = this.cells.selected ? this.cells.order.indexOf(this.cells.selected.id) : 0;
    const next = this.places.findIndex(({ view }) => this.cells.order.indexOf(view.id) >= selected);
    this.at = this.places.length ? Math.max(0, next) : -1;
    this.show();
  }

  /** @param {number} by */
  go(by) {
    const count = this.places.length;
    if (count) this.at = (this.at + by + count) % count;
    this.show();
  }

  show() {
    const isWrong = this.wanted.value !== "" && this.form === null;
    const count = `${this.at + 1} of ${this.places.length}`;
    byId("find-count", HTMLElement).textContent = isWrong ? "no regular expression" : this.wanted.value ? count : "";
    this.mark();
    const place = this.places[this.at];
    if (!place) return;
    this.cells.select(place.view, false);
    place.view.box.classList.remove("away");
    if (place.view.isProse) place.view.box.classList.add("editing"); // its text has the place, and not what it says
    place.view.text.setSelectionRange(place.start, place.end);
    (place.view.layer?.place.querySelector(".t-now") ?? place.view.box).scrollIntoView({ block: "nearest" });
  }

  /** Marks the places in their cells. */
  mark() {
    const of = grouped(this.places);
    const now = this.places[this.at];
    for (const view of this.cells.views.values()) {
      const places = of.get(view);
      if (view.isProse && view !== now?.view && document.activeElement !== view.text) view.box.classList.remove("editing");
      if (!places && !view.layer?.marks.length) continue;
      view.paint();
      view.layer?.mark((places ?? []).map((one) => ({ kind: one === now ? "now" : "found", start: one.start, end: one.end })));
    }
  }

  // ---- replacing

  /** Replaces the place that is shown, and goes to the next one. */
  async replace() {
    const place = this.places[this.at];
    if (place) await this.change([place], "replacement");
  }

  replaceAll() {
    return this.change(this.places, `replacement of ${this.places.length}`);
  }

  /** @type {(places: Place[], what: string) => Promise<void>} */
  async change(places, what) {
    const of = [...grouped(places)];
    if (of.length === 0) return;
    const { at } = this;
    const isDone = await this.several.step(what, of.map(([view]) => view), () => ({
      set: of.map(([view, some]) => ({ id: view.id, base: view.value, text: this.replaced(view, some) })),
    }));
    if (!isDone) return;
    this.cells.choice.drop(); // what is done next is for one cell
    await until(() => of.every(([view]) => view.value === view.cell.input));
    this.search();
    this.at = Math.min(at, this.places.length - 1);
    this.show();
    this.cells.page.note(`${places.length} replaced; Z takes it back`);
    this.wanted.focus();
  }

  /** @type {(view: CellView, places: Place[]) => string} */
  replaced(view, places) {
    let text = "", end = 0;
    for (const { start, end: to, found } of places) {
      text += view.value.slice(end, start) + this.otherFor(found);
      end = to;
    }
    return text + view.value.slice(end);
  }

  /**
   * What comes in its place: of a regular expression `$1` is what its first group has found, and `$&` all of it.
   * @type {(found: RegExpExecArray) => string}
   */
  otherFor(found) {
    const { value } = this.other;
    return this.isForm.checked ? value.replace(/\$(&|\$|\d)/g, (_, one) => (one === "$" ? "$" : found[one === "&" ? 0 : Number(one)] ?? "")) : value;
  }
}

/** @type {(view: CellView, form: RegExp) => Place[]} */
function placesIn(view, form) {
  return [...view.value.matchAll(form)].filter((found) => found[0]).map((found) => {
    const start = found.index ?? 0;
    return { view, start, end: start + found[0].length, found: /** @type {RegExpExecArray} */ (found) };
  });
}

/** @type {(places: Place[]) => Map<CellView, Place[]>} */
function grouped(places) {
  /** @type {Map<CellView, Place[]>} */
  const of = new Map();
  for (const place of places) of.set(place.view, [...(of.get(place.view) ?? []), place]);
  return of;
}

/** @type {(isSo: () => boolean) => Promise<void>} */
async function until(isSo) {
  for (let times = 0; times < 100 && !isSo(); times += 1) await new Promise((done) => setTimeout(done, 20));
}
