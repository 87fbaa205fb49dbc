// The text of a cell in colours: a layer over its text area, whose own letters aren't drawn then. It has the same letters in the same places.

import { make } from "./dom.js";
import { bracketsAt, tokensOf } from "./languages.js";

/** @typedef {import("./languages").Token} Token */

const NUMBERED = "tmhost-numbered";

/** Shows the numbers of lines, or doesn't any more; the browser keeps that. */
export function toggleNumbers() {
  const isOn = document.body.classList.toggle("numbered");
  try {
    localStorage.setItem(NUMBERED, String(isOn));
  } catch {
    // It is for this page alone.
  }
}

export function showNumbers() {
  try {
    document.body.classList.toggle("numbered", localStorage.getItem(NUMBERED) === "true");
  } catch {
    // Nothing is kept.
  }
}

export class Layer {
  /** @param {HTMLTextAreaElement} text */
  constructor(text) {
    this.text = text;
    this.place = make("pre", "layer");
    this.place.inert = true; // it is neither read out nor found: the text area is
    this.place.dir = "auto";
    this.drawn = "";
    /** @type {Token[]} */
    this.tokens = [];
    /** @type {Token[]} */
    this.marks = []; // what was searched for
    /** @type {Map<number, HTMLElement>} */
    this.brackets = new Map();
    /** @type {HTMLElement[]} */
    this.shown = []; // brackets
    text.after(this.place);
    text.parentElement?.classList.add("painted");
  }

  /** @type {(language: string) => void} */
  draw(language) {
    const { value } = this.text;
    const wanted = `${language} ${value}`;
    if (wanted === this.drawn) return;
    this.drawn = wanted;
    this.tokens = tokensOf(language, value);
    this.fill();
  }

  /** @param {Token[]} marks in their order */
  mark(marks) {
    if (marks.length === 0 && this.marks.length === 0) return;
    this.marks = marks;
    this.fill();
  }

  /** Puts the text into the layer, line by line. */
  fill() {
    const { value } = this.text;
    this.brackets.clear();
    this.shown = [];
    const all = document.createDocumentFragment();
    let line = all.appendChild(make("span", "line"));
    let end = 0;
    /** @type {(kind: string, to: number) => void} */
    const add = (kind, to) => {
      const lines = value.slice(end, to).split("\n");
      lines.forEach((part, at) => {
        if (at > 0) {
          line.append("\n");
          line = all.appendChild(make("span", "line"));
        }
        if (part) this.append(line, kind, part, end);
      });
      end = to;
    };
    for (const { kind, start, end: to } of this.cut()) {
      add("", start);
      add(kind, to);
    }
    add("", value.length);
    this.place.replaceChildren(all);
  }

  /** @type {(line: HTMLElement, kind: string, part: string, start: number) => void} */
  append(line, kind, part, start) {
    if (!kind) {
      line.append(part);
      return;
    }
    const node = line.appendChild(make("span", `t-${kind}`, part));
    if (kind === "bracket") this.brackets.set(start, node);
  }

  /**
   * The tokens, with what was searched for in their places.
   * @returns {Token[]}
   */
  cut() {
    if (this.marks.length === 0) return this.tokens;
    const rest = this.tokens.flatMap((token) => {
      const over = this.marks.filter(({ start, end }) => start < token.end && end > token.start);
      if (over.length === 0) return [token];
      const starts = [token.start, ...over.map(({ end }) => end)];
      const ends = [...over.map(({ start }) => start), token.end];
      return starts.map((start, at) => ({ kind: token.kind, start, end: ends[at] })).filter(({ start, end }) => start < end);
    });
    return [...rest, ...this.marks].sort((one, other) => one.start - other.start);
  }

  /** Shows the bracket at the cursor, and the one that belongs to it. */
  showBrackets() {
    const { selectionStart, selectionEnd, value } = this.text;
    const isAt = selectionStart === selectionEnd && document.activeElement === this.text;
    const places = isAt ? bracketsAt(value, this.tokens, selectionStart) : [];
    const nodes = places.flatMap((place) => this.brackets.get(place) ?? []);
    for (const node of this.shown) node.classList.remove("pair", "alone");
    for (const node of nodes) node.classList.add(places.length === 2 ? "pair" : "alone");
    this.shown = nodes;
  }
}
