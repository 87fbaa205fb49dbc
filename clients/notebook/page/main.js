// The page of a worksheet: puts its parts together.

import { Actions } from "./actions.js";
import * as bars from "./bars.js";
import { Before } from "./before.js";
import { Cells, emptyLine } from "./cells.js";
import { Completions } from "./completions.js";
import { keysDialog, sessionDialog, wordsDialog } from "./dialogs.js";
import { byId } from "./dom.js";
import { Earlier } from "./earlier.js";
import { beginStopBox } from "./errors.js";
import { listen } from "./feed.js";
import { Keys } from "./keys.js";
import { savePicture, showPicture } from "./output.js";
import { Find } from "./find.js";
import { Folds } from "./folds.js";
import { Help } from "./help.js";
import { showContents } from "./contents.js";
import { showNumbers } from "./layer.js";
import { News } from "./news.js";
import { fitOnPaper } from "./paper.js";
import { Several } from "./several.js";

/** @typedef {import("./types").Message} Message */

/** @type {import("./cell").Page} */
const page = { isThere: false, isLooking: false, sessions: new Map(), note: bars.note, news: new News() };
let hasEnded = false; // the program, while the server is there
let hasBeenThere = false; // the server: what was typed since is to be saved when it is there again
const cells = new Cells(page);
const actions = new Actions(cells, bars.note);
const several = new Several(actions);
const completions = new Completions();
const help = new Help();
const find = new Find(cells, several);
const folds = new Folds(cells);
const showKeys = keysDialog();
/** @type {import("./then").Does["takeBack"]} */
const takeBack = (cell, at) => {
  for (const dialog of document.querySelectorAll("dialog.past")) /** @type {HTMLDialogElement} */ (dialog).close();
  return several.takeBack(cell, at);
};
const earlier = new Earlier(takeBack, () => document.title);
const before = new Before(takeBack, (at) => earlier.open(at));
let isForCell = false; // whether a session is made for a new cell
const askSession = sessionDialog(async (name, words, tab) => {
  const reported = await actions.ask("session", { name, words, tab });
  if (!reported.refused) bars.offerSession(name);
  if (!reported.refused && isForCell) await actions.make(cells.order.at(-1) ?? 0, name, true);
}, (name) => page.sessions.has(name));
const askWords = wordsDialog((session, words) => actions.ask("words", { session, words }));
new Keys(cells, actions, { several, completions, help, find, folds, earlier, before }, showKeys);
showNumbers();
fitOnPaper();
document.body.insertBefore(emptyLine(), cells.place.nextSibling);

// ---- what the server tells

/** @type {(message: Message, isFirst: boolean) => void} */
function hear(message, isFirst) {
  if (isFirst) page.isThere = true; // it is said after what is reported
  if (message.sessions) page.sessions = new Map(message.sessions.map((session) => [session.name, session]));
  if (message.path !== undefined) bars.showPath(message.path);
  if (message.isOfFolder) byId("list", HTMLAnchorElement).hidden = false;
  if (message.isLooking !== undefined) lookOn(message.isLooking);
  if (message.ended !== undefined) {
    hasEnded = message.ended !== null;
    bars.showTrouble(message.ended, page.isLooking);
    bars.showConnection(true, hasEnded, page.isLooking);
  }
  if (message.removed) bars.showRemoved(message.removed);
  if (message.sessions) bars.showSessions(page.sessions, page.isThere);
  cells.hear(message);
  if (message.cells || message.order || message.gone) folds.show();
  if (message.says) bars.note(message.says.join("; "));
  if (message.ended === null && !isFirst) saveAll(); // what could not be saved while the program was gone
  if (isFirst) document.documentElement.dataset.ready = "true";
}

/**
 * Whether the worksheet is only shown, since another program has it.
 * @param {boolean} isLooking
 */
function lookOn(isLooking) {
  page.isLooking = isLooking;
  document.body.classList.toggle("looking", isLooking);
  for (const { own } of cells.views.values()) if (own) own.text.readOnly = isLooking;
}

/** @param {boolean} isThere */
function connect(isThere) {
  page.isThere = isThere;
  bars.showConnection(isThere, hasEnded, page.isLooking);
  bars.showSessions(page.sessions, isThere);
  if (isThere && hasBeenThere) saveAll();
  hasBeenThere ||= isThere;
  if (!isThere) for (const view of cells.views.values()) view.say(); // else all were reported again
}

function saveAll() {
  for (const view of cells.views.values()) view.saveIfFit();
}

beginStopBox();
listen({ hear, connect, end: bars.showClosed });
setInterval(() => cells.views.forEach((view) => view.tick()), 1_000);

// ---- what the user does

/** @type {Record<string, (node: HTMLElement) => unknown>} */
const DOES = {
  askSession: () => {
    isForCell = cells.order.length === 0;
    return askSession();
  },
  showKeys,
  showRemoved: () => bars.openRemoved(),
  showEarlier: () => earlier.open(),
  showExport: async () => {
    if (await actions.saveIdle()) byId("export-dialog", HTMLDialogElement).showModal();
  },
  restore: (node) => {
    byId("removed-dialog", HTMLDialogElement).close();
    return actions.restore(Number(node.dataset.number));
  },
  interruptSession: (node) => actions.interruptSession(sessionOf(node)),
  stopSession: (node) => actions.stopSession(sessionOf(node)),
  restartSession: (node) => actions.restartSession(sessionOf(node)),
  chooseWords: (node) => askWords(sessionOf(node), page.sessions.get(sessionOf(node))?.words ?? ""),
  evaluateAll: () => actions.evaluateAll(),
  evaluateStale: () => actions.evaluateStale(),
  restartAll: () => actions.restartAll(),
  addCell: () => {
    isForCell = actions.defaultSession() === null;
    return isForCell ? askSession() : actions.addCell();
  },
  addProse: () => actions.addProse(),
  showFind: () => find.open(),
  showContents: () => showContents(cells),
  findNext: () => find.go(1),
  findLast: () => find.go(-1),
  replace: () => find.replace(),
  replaceAll: () => find.replaceAll(),
  closeFind: () => find.close(),
  reopen: () => actions.reopen(),
};

/** @type {Record<string, (view: import("./cell").CellView, node: HTMLElement) => unknown>} */
const DOES_TO_CELL = {
  evaluate: (view) => several.evaluate(view),
  evaluateFrom: (view) => actions.evaluateFrom(view),
  interrupt: (view) => actions.interrupt(view),
  stop: (view) => actions.stop(view),
  restart: (view) => actions.restart(view),
  insertAbove: (view) => actions.insertAbove(view),
  insertBelow: (view) => actions.insertBelow(view),
  moveUp: (view) => several.move(view, -1),
  moveDown: (view) => several.move(view, 1),
  unfold: (view) => folds.unfold(view),
  split: (view) => several.split(view),
  merge: (view) => several.merge(view),
  duplicate: (view) => several.duplicate(view),
  toggleText: (view) => actions.toggleText(view),
  showBefore: (view) => before.open(view),
  clear: (view) => actions.clear(view),
  remove: (view) => several.remove("removal", view),
  showMore: (view) => actions.showMore(view),
  savePicture: (view, node) => savePicture(node, `cell-${view.id}`),
  showPicture: (_, node) => showPicture(node),
  keepMine: (view) => actions.keepMine(view),
  takeTheirs: (view) => actions.takeTheirs(view),
};

/** @type {(node: HTMLElement) => string} */
const sessionOf = (node) => node.closest("li")?.dataset.session ?? "";

document.addEventListener("click", (event) => {
  const link = event.target instanceof Element ? event.target.closest(".reading a[href^='#cell-']") : null;
  const linked = link && cells.of(document.querySelector(link.getAttribute("href") ?? ""));
  if (linked) {
    event.preventDefault();
    cells.select(linked);
    linked.box.scrollIntoView({ block: "start" });
    return;
  }
  const node = event.target instanceof Element ? event.target.closest("button[data-do]") : null;
  if (!(node instanceof HTMLElement)) return;
  const what = node.dataset.do ?? "";
  const view = cells.of(node);
  if (view && event.detail > 0 && !view.box.classList.contains("chosen")) cells.select(view); // by the mouse: the keys are for the cell again
  if (view) DOES_TO_CELL[what]?.(view, node);
  else DOES[what]?.(node);
});

// While a button is pressed nothing moves under the pointer: its cell is selected by the click.
let isPressed = false;
document.addEventListener("mouseup", () => (isPressed = false));

// While a button beside the cells is pressed, a text that is left by that is closed when the button is let go: prose has another height then, and the button
// would lie elsewhere.
let isPressedBeside = false;
/** @type {import("./cell").CellView | undefined} */
let left;
document.addEventListener("mousedown", (event) => {
  const node = event.target instanceof Element ? event.target.closest("button") : null;
  isPressedBeside = node !== null && node.closest("#cells, dialog") === null;
});
document.addEventListener("mouseup", () => setTimeout(() => { // after the click
  isPressedBeside = false;
  if (left && document.activeElement !== left.text) leave(left);
  left = undefined;
}));

/** @param {import("./cell").CellView} view */
function leave(view) {
  view.box.classList.remove("editing");
  view.layer?.showBrackets();
  completions.close();
  help.close();
  view.showProse();
}

cells.place.addEventListener("mousedown", (event) => {
  const view = cells.of(event.target);
  isPressed = event.target instanceof Element && event.target.closest("button, select") !== null;
  if (!view || isPressed) return;
  if (event.shiftKey && event.target !== view.text) {
    event.preventDefault(); // no text is chosen by that
    cells.choice.extend(view);
    return;
  }
  cells.choice.drop();
  cells.select(view, event.target === view.box || event.target === view.parts.head);
});

cells.place.addEventListener("dblclick", (event) => {
  const view = cells.of(event.target);
  if (view?.isProse && event.target instanceof Element && event.target.closest(".reading")) cells.edit(view);
});

cells.place.addEventListener("focusin", (event) => {
  const view = cells.of(event.target);
  if (!view || isPressed) return;
  cells.select(view, false);
  view.box.classList.toggle("editing", event.target === view.text);
  if (event.target === view.text) view.paint();
});

cells.place.addEventListener("focusout", (event) => {
  const view = cells.of(event.target);
  if (!view || event.target !== view.text) return;
  if (isPressedBeside) left = view;
  else leave(view);
  view.saveIfFit();
});

cells.place.addEventListener("input", (event) => {
  const view = cells.of(event.target);
  if (!view || event.target !== view.text) return;
  if (completions.isOpen) completions.close();
  if (help.isOpen) help.close();
  view.typed();
});

// A cell has colours when it has come into view.
cells.place.addEventListener("contentvisibilityautostatechange", (event) => {
  if (!(/** @type {any} */ (event).skipped)) cells.of(event.target)?.paint();
}, true);

document.addEventListener("selectionchange", () => cells.of(document.activeElement)?.layer?.showBrackets());

cells.place.addEventListener("change", (event) => {
  const view = cells.of(event.target);
  if (view && event.target instanceof HTMLSelectElement) several.change(view, event.target.value || null);
});

document.addEventListener("visibilitychange", () => document.hidden && saveAll());

// What the browser prints and looks through is all there.
addEventListener("beforeprint", () => cells.paintAll());
document.addEventListener("keydown", ({ key, ctrlKey, metaKey }) => (ctrlKey || metaKey) && key === "f" && cells.growAll(), true);

addEventListener("beforeunload", (event) => {
  if ([...cells.views.values()].some((view) => view.isUnsaved)) event.preventDefault();
});
