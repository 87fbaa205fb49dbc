// The buttons of the selected cell. There is one bar, which goes from cell to cell: a thousand cells have no ten thousand buttons.

import { button, make } from "./dom.js";

/** @typedef {import("./cell").CellView} CellView */

const BUTTONS = /** @type {const} */ ([
  ["evaluate", "▶", "Evaluate (Control-Enter)"],
  ["evaluateFrom", "▶▶", "Evaluate from here on"],
  ["interrupt", "Interrupt", "Interrupt its interpreter, which keeps its variables (I I)"],
  ["stop", "Stop", "Stop its interpreter, whose variables go"],
  ["restart", "Restart", "Stop its interpreter, and evaluate all cells of its session (0 0)"],
  ["insertAbove", "+↑", "New cell above (A)"],
  ["insertBelow", "+↓", "New cell below (B)"],
  ["duplicate", "⧉", "Duplicate (Shift-D)"],
  ["split", "÷", "Cut in two at the cursor (Control-Shift-Minus in the text)"],
  ["merge", "∪", "Make one cell of those that are chosen, or of this one and the one below (Shift-M)"],
  ["moveUp", "↑", "Move up (Alt-Up)"],
  ["moveDown", "↓", "Move down (Alt-Down)"],
  ["toggleText", "TeX", "Show the answer as text (T)"],
  ["showBefore", "Before", "What the cell had before: texts and answers (E)"],
  ["clear", "Clear", "Take the answer away"],
  ["remove", "✕", "Remove the cell (D D)"],
]);
const OF_CODE = ["evaluate", "evaluateFrom", "interrupt", "stop", "restart", "toggleText", "clear"];

export function toolbarOf() {
  const bar = make("div", "toolbar");
  bar.setAttribute("role", "toolbar");
  bar.setAttribute("aria-label", "Selected cell");
  const buttons = new Map(BUTTONS.map(([what, text, label]) => [/** @type {string} */ (what), button(what, text, label)]));
  const which = make("select");
  which.dataset.do = "change";
  which.setAttribute("aria-label", "Session of the cell");
  which.title = "The session of the cell";
  bar.append(which, ...buttons.values());

  /** @type {(view: CellView) => void} */
  const show = (view) => {
    const { cell, page } = view;
    const names = [...page.sessions.values()].filter((session) => !session.isProse).map(({ name }) => name);
    const wanted = JSON.stringify(names);
    if (which.dataset.names !== wanted) {
      which.dataset.names = wanted;
      which.replaceChildren(...names.map((name) => new Option(name, name)), new Option("prose", ""));
    }
    which.value = view.isProse ? "" : cell.session;
    const session = page.sessions.get(cell.session);
    for (const what of OF_CODE) buttons.get(what)?.toggleAttribute("hidden", view.isProse);
    buttons.get("interrupt")?.toggleAttribute("disabled", !session?.waiting);
    buttons.get("stop")?.toggleAttribute("disabled", !session?.runs);
    buttons.get("toggleText")?.toggleAttribute("hidden", !view.output.hasFormulas);
    buttons.get("toggleText")?.setAttribute("aria-pressed", String(view.output.isText));
    buttons.get("clear")?.toggleAttribute("disabled", !cell.output && cell.state !== "lost");
    if (bar.parentElement !== view.parts.head) view.parts.head.append(bar);
  };
  return { bar, show };
}
