// What an interpreter has written of an answer that isn't whole yet: a text in grey below its cell. It isn't read out, and is gone when the answer comes.

import { make, visible } from "./dom.js";

/** @typedef {import("./cell").CellView} CellView */
/** @typedef {import("./types").Partial} Partial */

const NEAR = 20; // dots from the end at which the end is followed

/** @type {WeakMap<CellView, {box: HTMLElement, mark: HTMLElement, text: HTMLElement}>} */
const places = new WeakMap();

/** @type {(view: CellView | undefined, reported: Partial | null) => void} */
export function showPartial(view, reported) {
  if (!view) return;
  if (!reported || view.cell.state !== "running") {
    places.get(view)?.box.remove();
    places.delete(view);
    return;
  }
  const { mark, text } = places.get(view) ?? begin(view);
  const isAtEnd = text.scrollHeight - text.scrollTop - text.clientHeight < NEAR;
  mark.textContent = `not yet an answer, and kept nowhere${reported.isCut ? "; its end" : ""}:`;
  text.textContent = visible(reported.text);
  if (isAtEnd) text.scrollTop = text.scrollHeight;
}

/** @param {CellView} view */
function begin(view) {
  const place = { box: make("div", "partial"), mark: make("p"), text: make("pre") };
  place.box.setAttribute("aria-live", "off");
  place.text.dir = "ltr";
  place.box.append(place.mark, place.text);
  view.output.box.after(place.box);
  places.set(view, place);
  return place;
}
