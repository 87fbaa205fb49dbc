// Answers, inputs and sections that are folded. The browser keeps which ones, for this worksheet's address.

import { button } from "./dom.js";

/** @typedef {import("./cell").CellView} CellView */
/** @typedef {import("./cells").Cells} Cells */
/** @typedef {"answer" | "input" | "section"} Kind */

const KINDS = /** @type {const} */ (["answer", "input", "section"]);
const FENCE = /^```[^]*?(?:^```|$(?![^]))/gm;

/**
 * The headings of a text of prose: their levels and texts.
 * @type {(text: string) => [number, string][]}
 */
export const headingsOf = (text) =>
  [...text.replace(FENCE, "").matchAll(/^(#{1,6}) +(.*?)(?: +#+)?$/gm)].map(([, marks, words]) => [marks.length, words]);

/** @type {(view: CellView) => number} */
const levelOf = (view) => (view.isProse ? headingsOf(view.value)[0]?.[0] ?? 0 : 0);

export class Folds {
  /** @param {Cells} cells */
  constructor(cells) {
    this.cells = cells;
    this.name = `tmhost-folds ${location.pathname}`;
    /** @type {Record<Kind, Set<number>>} */
    this.of = { answer: new Set(), input: new Set(), section: new Set() };
    this.isShown = false; // whether anything may be folded in the page
    this.read();
  }

  read() {
    try {
      const reported = JSON.parse(localStorage.getItem(this.name) ?? "{}");
      for (const kind of KINDS) this.of[kind] = new Set(reported[kind] ?? []);
    } catch {
      // Nothing is kept.
    }
  }

  keep() {
    try {
      localStorage.setItem(this.name, JSON.stringify(Object.fromEntries(KINDS.map((kind) => [kind, [...this.of[kind]]]))));
    } catch {
      // It is for this page alone.
    }
  }

  /**
   * Folds what these cells have, or unfolds it where the first one's is folded.
   * @type {(views: CellView[], kind: Kind) => void}
   */
  toggle(views, kind) {
    /** @type {(view: CellView) => Kind} */
    const kindFor = (view) => (levelOf(view) ? "section" : kind);
    const isFolded = views.length > 0 && this.of[kindFor(views[0])].has(views[0].id);
    for (const view of views) {
      if (view.isProse && !levelOf(view)) continue;
      if (isFolded) this.of[kindFor(view)].delete(view.id);
      else this.of[kindFor(view)].add(view.id);
    }
    this.keep();
    this.show();
  }

  /** @param {CellView} view */
  unfold(view) {
    for (const kind of KINDS) this.of[kind].delete(view.id);
    this.keep();
    this.show();
    this.cells.select(view);
  }

  /** Shows which ones are folded. A page without any takes no time for it. */
  show() {
    const isAny = KINDS.some((kind) => this.of[kind].size > 0);
    if (!isAny && !this.isShown) return;
    this.isShown = isAny;
    let level = 0; // of the section that is folded
    /** @type {CellView | undefined} */
    let head;
    let count = 0;
    for (const view of [...this.cells.inOrder(), undefined]) {
      const own = view ? levelOf(view) : 1;
      if (head && (!view || (own > 0 && own <= level))) {
        this.offer(head, `${count} ${count === 1 ? "cell" : "cells"} folded`);
        head = undefined;
      }
      view?.box.classList.toggle("away", head !== undefined);
      if (!view) return;
      if (head) count += 1;
      else if (own && this.of.section.has(view.id)) [head, level, count] = [view, own, 0];
      else this.one(view);
    }
  }

  /** @param {CellView} view */
  one(view) {
    const isAnswer = this.of.answer.has(view.id) && !view.isProse, isInput = this.of.input.has(view.id) && !view.isProse;
    view.box.classList.toggle("answer-folded", isAnswer);
    view.box.classList.toggle("input-folded", isInput);
    const lines = view.value.split("\n").length;
    const says = [...(isInput ? [`${lines} ${lines === 1 ? "line" : "lines"} folded`] : []), ...(isAnswer ? ["answer folded"] : [])];
    this.offer(view, says.join(", "));
  }

  /** @type {(view: CellView, says: string) => void} */
  offer(view, says) {
    const old = view.box.querySelector(":scope > .unfold");
    if (!says) old?.remove();
    if (!says || old?.textContent === says) return;
    const node = button("unfold", says, `Unfold: ${says}`);
    node.classList.add("unfold");
    node.setAttribute("aria-expanded", "false");
    if (old) old.replaceWith(node);
    else view.box.append(node);
  }
}
