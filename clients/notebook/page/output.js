// An answer: texts and errors as text nodes, formulas by the setter, pictures as images.

import { ask } from "./talk.js";
import { button, make, visible } from "./dom.js";
import { errorOf, markError } from "./errors.js";
import { LONG, partsOf, piecesOf } from "./latex.js";
import { setInto } from "./setter.js";

/** @typedef {import("./types").Output} Output */
/** @typedef {import("./types").Part} Part */

const LONGEST = 50_000; // characters of a formula that the server tells as one
const MOST_LONG = 1_000_000; // characters of all long formulas that are set in the page at once

/** @type {(number: number) => string} */
const grouped = (number) => number.toLocaleString("en");

/**
 * A formula, as its source until it is set; of a long one the page says why it isn't.
 * @type {(tex: string, tell: (why: string) => void) => HTMLElement}
 */
function formulaOf(tex, tell) {
  const place = make("span", "formula", visible(tex));
  place.dataset.tex = tex;
  if (tex.length <= LONG) setInto(place, "tex", tex);
  else setInto(place, "tex", tex, () => hasRoomFor(tex)).then((isOver) => longIsOver(place, tex, isOver, tell));
  return place;
}

/** @type {(tex: string) => boolean} */
function hasRoomFor(tex) {
  const set = /** @type {HTMLElement[]} */ ([...document.querySelectorAll(".formula[role=math]")]);
  return set.reduce((sum, { dataset }) => sum + (dataset.tex?.length ?? 0), tex.length) <= MOST_LONG;
}

/** @type {(place: HTMLElement, tex: string, isOver: boolean, tell: (why: string) => void) => void} */
function longIsOver(place, tex, isOver, tell) {
  if (place.classList.contains("set")) {
    place.setAttribute("role", "math");
    place.setAttribute("aria-label", visible(tex));
    return;
  }
  const parts = partsOf(tex), canBreak = parts?.every((part) => part.kind === "words" || piecesOf(part.tex, true, 0));
  const why = !parts ? "it is no text with formulas" : !canBreak ? "it has no signs between terms at which it could be broken"
    : !isOver ? "to set it takes too long" : hasRoomFor(tex) ? "it can't be set" : "more would hold the page up";
  tell(`A formula of ${grouped(tex.length)} characters is shown as text: ${why}.`);
}

/**
 * The pictures of the page, by the elements that they are shown in.
 * @type {WeakMap<Element, Part>}
 */
const pictures = new WeakMap();

/** @type {(part: Part) => boolean} */
const isPicture = (part) => (part.picture ?? part.heavy) !== undefined;

/** @type {(part: Part) => string} */
const aboutOf = (part) => visible(part.text ?? "").replace(/^\{[^:]*: |\}$/g, "");

/**
 * A picture, all of which stands in its address: a browser runs no script of it, and loads nothing for it. One that it can't draw is the text that stands
 * for it.
 * @type {(part: Part) => HTMLElement}
 */
function imageOf(part) {
  const image = make("img");
  image.alt = `A picture (${aboutOf(part)})`;
  image.decoding = "async";
  image.addEventListener("error", () => image.replaceWith(visible(part.text ?? "")));
  image.src = part.picture ?? part.heavy ?? "";
  return image;
}

/**
 * A picture with its buttons. One that takes long to draw is drawn when its button is pressed.
 * @type {(part: Part) => HTMLElement}
 */
export function pictureOf(part) {
  const place = make("span", "picture"), about = aboutOf(part);
  const first = part.heavy === undefined ? imageOf(part)
    : button("showPicture", `Show the picture (${about})`, `Show the picture (${about}), which may take seconds`);
  place.append(first, button("savePicture", "Save", `Save the picture (${about})`));
  pictures.set(place, part);
  return place;
}

/**
 * Draws a picture that waits for that.
 * @type {(button: HTMLElement) => void}
 */
export function showPicture(button) {
  const place = button.parentElement, part = place && pictures.get(place);
  if (!part) return;
  button.replaceWith(imageOf(part));
  /** @type {HTMLElement | null} */ (place.querySelector("button"))?.focus(); // the one that had it is gone
}

/** @type {(part: Part, tell?: (why: string) => void) => Node | string} */
function nodeOf(part, tell = () => undefined) {
  if (isPicture(part)) return pictureOf(part);
  if (part.error !== undefined) return errorOf(part.error);
  return part.tex === undefined ? visible(part.text ?? "") : formulaOf(part.tex, tell);
}

/**
 * Gives the bytes of a picture, as a file.
 * @type {(button: HTMLElement, name: string) => void}
 */
export function savePicture(button, name) {
  const part = button.parentElement && pictures.get(button.parentElement);
  const [head, text] = (part?.picture ?? part?.heavy ?? "").split(";base64,");
  if (text === undefined) return;
  const bytes = Uint8Array.from(atob(text), (character) => character.charCodeAt(0));
  const link = make("a");
  link.href = URL.createObjectURL(new Blob([bytes], { type: "application/octet-stream" }));
  link.download = `${name}.${head.slice("data:image/".length).replace("+xml", "").replace("jpeg", "jpg")}`;
  link.click();
  setTimeout(() => URL.revokeObjectURL(link.href), 60_000);
}

/**
 * Why formulas of an answer are shown as text; nothing where they are set.
 * @type {(shown: Output) => string}
 */
function whyNotSet({ parts, isCut, unset }) {
  if (unset > LONGEST) return `A formula of ${grouped(unset)} characters is shown as text: at most ${grouped(LONGEST)} are set, since more would hold the page up.`;
  if (isCut && (unset || parts.some(({ tex }) => tex !== undefined))) return "Formulas in so long an answer are shown as text.";
  return unset ? `A formula of ${grouped(unset)} characters is shown as text: the long ones of an answer may have ${grouped(LONGEST)}.` : "";
}

/** What each answer is shown in. */
export function outputShape() {
  const box = make("div", "output"), body = make("pre");
  box.hidden = true;
  body.dir = "ltr";
  box.append(body);
  return box;
}

export class OutputView {
  /**
   * @param {number} id
   * @param {HTMLElement} box as `outputShape` makes it
   * @param {(start: number) => Promise<import("./types").Reply>} piece fetches a further piece of the answer
   */
  constructor(id, box, piece = (start) => ask("output", { id, start })) {
    this.piece = piece;
    this.box = box;
    this.body = /** @type {HTMLElement} */ (box.querySelector("pre"));
    this.isText = false;
    /** @type {Output | null} */
    this.shown = null;
    this.end = 0; // characters that are shown
  }

  /** @type {(output: Output | null, isOld: boolean) => void} */
  update(output, isOld) {
    this.box.classList.toggle("old", isOld);
    if (same(output, this.shown)) return;
    this.shown = output;
    this.draw();
  }

  /** Shows the answer as text, or with its formulas again. */
  toggle() {
    this.isText = !this.isText;
    this.draw();
    return this.isText;
  }

  draw() {
    const { shown } = this;
    this.more?.remove();
    this.pictures?.remove();
    this.why?.remove();
    this.body.replaceChildren();
    markError(this.box, shown);
    this.box.hidden = !shown || shown.length === 0;
    if (!shown) return;
    if (this.isText || shown.isCut) this.body.append(visible(shown.text));
    else this.body.append(...this.nodesOf(shown));
    this.end = [...shown.text].length;
    const why = this.isText ? "" : whyNotSet(shown);
    if (why) this.tell(why);
    if (!shown.isCut && !(this.isText && this.end < shown.length)) return;
    this.offerMore();
    if (!this.isText) this.appendPictures(shown);
  }

  /** @param {Output} shown */
  nodesOf(shown) {
    const tell = (/** @type {string} */ why) => {
      if (this.shown === shown && !this.isText) this.tell(why);
    };
    return shown.parts.map((part) => nodeOf(part, tell));
  }

  /**
   * Says why a formula is shown as text.
   * @param {string} why
   */
  tell(why) {
    this.why?.remove();
    this.body.before(this.why = make("p", "more", why));
  }

  /**
   * The pictures of an answer whose text is shown piece by piece.
   * @type {(shown: Output) => void}
   */
  appendPictures(shown) {
    this.pictures = make("div", "pictures");
    this.pictures.append(...shown.parts.filter(isPicture).map((part) => nodeOf(part)));
    this.box.append(this.pictures);
  }

  offerMore() {
    const length = this.shown?.length ?? 0;
    this.more = make("p", "more", `${grouped(this.end)} of ${grouped(length)} characters. `);
    this.more.append(button("showMore", "Show more", "Show more of the answer"));
    this.body.after(this.more);
  }

  /** Fetches a further piece of a long answer. */
  async showMore() {
    const { shown } = this;
    const reported = await this.piece(this.end);
    if (reported.refused || shown !== this.shown || reported.text === undefined) return;
    this.body.append(visible(reported.text));
    this.end += [...reported.text].length;
    this.more?.remove();
    if (reported.text && this.end < (reported.length ?? 0)) this.offerMore();
  }

  get hasFormulas() {
    return this.shown?.parts.some((part) => part.tex !== undefined) ?? false;
  }
}

/** @type {(one: Output | null, other: Output | null) => boolean} */
function same(one, other) {
  return one === other || (!!one && !!other && one.length === other.length && one.text === other.text
    && JSON.stringify(one.parts) === JSON.stringify(other.parts));
}
