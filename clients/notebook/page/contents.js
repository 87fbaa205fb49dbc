// The contents: the headings of prose, each of which leads to its cell.

import { byId, make } from "./dom.js";
import { headingsOf } from "./folds.js";

/** @typedef {import("./cells").Cells} Cells */

/** @type {(cells: Cells) => void} */
export function showContents(cells) {
  const dialog = byId("contents-dialog", HTMLDialogElement);
  const rows = cells.inOrder().filter((view) => view.isProse).flatMap((view) => headingsOf(view.value).map(([level, words]) => {
    const item = make("li"), node = make("button", "", words || "(empty)");
    node.type = "button";
    item.style.marginInlineStart = `${level - 1}em`;
    item.dir = "auto";
    node.addEventListener("click", () => {
      dialog.close();
      cells.select(view);
      view.box.scrollIntoView({ block: "start" });
    });
    item.append(node);
    return item;
  }));
  byId("contents-list", HTMLElement).replaceChildren(...(rows.length ? rows : [make("li", "", "No prose has a heading yet: a line that begins with #.")]));
  dialog.showModal();
}
