// What prose says, with its pictures.

import { make, visible } from "./dom.js";
import { pictureOf } from "./output.js";
import { setInto } from "./setter.js";
import { ask } from "./talk.js";

/** A text of prose that is set: below the cell's own, which is shown while it is edited. */
export class Reading {
  /** @param {HTMLElement} box */
  constructor(box) {
    this.place = box.appendChild(make("div", "reading"));
    this.place.dir = "auto";
    /** @type {string | null} */
    this.read = null; // the text that it says, null where that is to be set again
  }

  /** @param {string} text */
  async show(text) {
    if (this.read === text) return;
    this.read = text;
    this.place.classList.remove("set");
    this.place.textContent = visible(text).trim() || "empty prose";
    const isOver = await setInto(this.place, "markdown", text, () => this.read === text && text.trim() !== "");
    if (!isOver && this.read === text) this.read = null;
    else await fillPictures(this.place);
  }
}

/**
 * Asks for the pictures of prose that was set, and shows each, or why there is none.
 * @type {(place: HTMLElement) => Promise<void>}
 */
export async function fillPictures(place) {
  const places = /** @type {HTMLElement[]} */ ([...place.querySelectorAll("[data-picture]")]);
  await Promise.all(places.map(async (node) => {
    const { picture, text } = node.dataset;
    const reported = await ask("picture", { address: picture });
    if (!reported.part) {
      node.replaceChildren(visible(`[${text}: ${reported.says ?? "no picture"}]`));
      return;
    }
    const shown = pictureOf(reported.part), image = shown.querySelector("img");
    if (image && text) image.alt = visible(text);
    node.replaceChildren(shown);
  }));
}
