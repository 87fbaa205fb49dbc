// Keys, as in JupyterLab. A cell has two modes: its text is edited, or the cell as a whole has the focus and letters are commands.

import { wordAt } from "./help.js";
import { toggleNumbers } from "./layer.js";
import { INDENT, comment, indent, insert, newLine } from "./typing.js";

/** @typedef {import("./actions").Actions} Actions */
/** @typedef {import("./before").Before} Before */
/** @typedef {import("./cell").CellView} CellView */
/** @typedef {import("./cells").Cells} Cells */
/** @typedef {import("./completions").Completions} Completions */
/** @typedef {import("./earlier").Earlier} Earlier */
/** @typedef {import("./find").Find} Find */
/** @typedef {import("./folds").Folds} Folds */
/** @typedef {import("./help").Help} Help */
/** @typedef {import("./several").Several} Several */

const TWICE_WITHIN = 800; // milliseconds between the two presses of D D

const STEPS = ["ArrowUp", "ArrowDown", "k", "j"]; // keys that do it again while they are held down

/** What the keys do, for people. */
export const TABLE = [
  ["Enter", "edit the cell; prose also by a double click"],
  ["Escape", "leave the text, to give commands; Tab goes on to the buttons then"],
  ["Shift-Enter", "evaluate, and go to the next cell"],
  ["Control-Enter", "evaluate"],
  ["Alt-Enter", "evaluate, and make a cell below"],
  ["Up, Down, K, J", "the cell above, below"],
  ["Home, End", "the first cell, the last one"],
  ["Shift-Up, Shift-Down, Shift-K, Shift-J", "choose several cells; also Shift with a click"],
  ["Control-A", "choose all cells"],
  ["A, B", "new cell above, below"],
  ["X, C", "cut, copy what is chosen; Control-X, Control-C too"],
  ["V, Shift-V", "paste below, above what was cut or copied here"],
  ["Control-V", "paste what was cut or copied anywhere: cells, or a text"],
  ["Shift-D", "duplicate"],
  ["D D", "remove"],
  ["Shift-M", "make one cell of several, or of the cell and the one below"],
  ["Control-Shift-Minus (in the text)", "cut the cell in two at the cursor"],
  ["Z, Control-Z", "take back the last removal, cut, paste, split, merge or move; in a text Control-Z takes back what was typed there"],
  ["Shift-Z, Control-Shift-Z, Control-Y", "do it again"],
  ["M, Y", "make it prose, make it a cell of the session that is chosen below"],
  ["Alt-Up, Alt-Down", "move the cell"],
  ["I I", "interrupt its interpreter"],
  ["0 0", "restart its interpreter, and evaluate its cells"],
  ["T", "show the answer as text, or with its formulas"],
  ["Tab (in the text)", "completions after a word, where the session has them; else four blanks; before each line that is chosen"],
  ["Shift-Tab (in the text)", "help on the word at the cursor; elsewhere take four blanks away at the start of the line, or of each that is chosen"],
  ["Control-/ (in the text)", "make comments of the lines that are chosen, or take that back"],
  ["F", "find and replace, in all cells"],
  ["O", "fold the answer, or the section of a heading"],
  ["Shift-O", "fold the text"],
  ["L", "show the numbers of lines, or not"],
  ["E", "what the cell had before: texts and answers"],
  ["Shift-E", "what the worksheet was"],
  ["Control-S", "save now"],
  ["H", "these keys"],
];

/** @type {(target: EventTarget | null) => boolean} */
const isText = (target) => target instanceof Element && target.matches("textarea, input:not([type=checkbox])");

export class Keys {
  /**
   * @param {Cells} cells
   * @param {Actions} actions
   * @param {{several: Several, completions: Completions, help: Help, find: Find, folds: Folds, earlier: Earlier, before: Before}} parts
   * @param {() => void} showKeys
   */
  constructor(cells, actions, { several, completions, help, find, folds, earlier, before }, showKeys) {
    this.cells = cells;
    this.actions = actions;
    this.several = several;
    this.help = help;
    this.find = find;
    this.folds = folds;
    this.earlier = earlier;
    this.before = before;
    this.completions = completions;
    this.showKeys = showKeys;
    this.last = { key: "", time: 0 };
    this.commands = this.commandsOf();
    document.addEventListener("keydown", (event) => this.press(event));
    // The browser has one undo for the whole page: it would take back what was typed last, wherever that is, and put the cursor there.
    document.addEventListener("beforeinput", (event) => {
      if (event.inputType.startsWith("history") && event.target !== document.activeElement) event.preventDefault();
    });
  }

  /** @returns {Record<string, (view: CellView) => unknown>} */
  commandsOf() {
    const { cells, actions, several, find, folds, earlier, before } = this;
    /** @type {(by: number) => (view: CellView) => void} */
    const step = (by) => (view) => {
      cells.choice.drop();
      cells.select(cells.beside(view, by));
    };
    /** @type {(by: number) => (view: CellView) => void} */
    const extend = (by) => (view) => cells.choice.extend(cells.beside(view, by));
    return {
      Enter: (view) => cells.edit(view),
      ArrowUp: step(-1), k: step(-1), ArrowDown: step(1), j: step(1),
      Home: () => cells.select(cells.at(0)), End: () => cells.select(cells.at(cells.order.length - 1)),
      a: (view) => actions.insertAbove(view), b: (view) => actions.insertBelow(view),
      "Shift+ArrowUp": extend(-1), "Shift+k": extend(-1), "Shift+ArrowDown": extend(1), "Shift+j": extend(1), Escape: () => cells.choice.drop(),
      x: () => several.cut(), c: () => several.copy(), v: () => several.paste(), "Shift+v": () => several.paste(undefined, true),
      "Shift+d": (view) => several.duplicate(view), "Shift+m": (view) => several.merge(view),
      dd: () => several.remove(), z: () => several.go(true), "Shift+z": () => several.go(false),
      m: (view) => several.change(view, null), y: (view) => view.isProse && several.change(view, actions.defaultSession()),
      ii: (view) => actions.interrupt(view), "00": (view) => actions.restart(view),
      o: (view) => folds.toggle(several.of(view), "answer"), "Shift+o": (view) => folds.toggle(several.of(view), "input"), f: () => find.open(),
      e: (view) => before.open(view), "Shift+e": () => earlier.open(),
      t: (view) => actions.toggleText(view), l: toggleNumbers, h: () => this.showKeys(),
    };
  }

  /** @param {KeyboardEvent} event */
  press(event) {
    if (this.isUndo(event)) return;
    // Where nothing has the focus the selected cell takes keys, but not after a dialog.
    const isNowhere = event.target === document.body && !document.querySelector("dialog[open]");
    const view = isNowhere ? this.cells.selected : this.cells.of(event.target);
    if (!view || event.isComposing) return;
    const isText = event.target === view.text;
    const isTaken = (isText && this.completions.isOpen && this.completions.key(event))
      || this.anywhere(event, view)
      || (isText && this.inText(event, view))
      || ((isNowhere || event.target === view.box) && this.command(event, view));
    if (!isTaken) return;
    event.preventDefault();
    event.stopPropagation();
  }

  /**
   * Outside of a text Control-Z does what Z does, and Control-Y what Shift-Z does; true where it was for that.
   * @param {KeyboardEvent} event
   */
  isUndo(event) {
    const key = event.key?.toLowerCase(); // a browser that fills a form in tells none
    if (!(event.ctrlKey || event.metaKey) || event.altKey || !["z", "y"].includes(key) || isText(event.target)) return false;
    event.preventDefault();
    this.last = { key: "", time: 0 };
    if (!event.repeat && !document.querySelector("dialog[open]")) this.several.go(key === "z" && !event.shiftKey);
    return true;
  }

  /**
   * Keys that do the same in both modes.
   * @type {(event: KeyboardEvent, view: CellView) => boolean}
   */
  anywhere(event, view) {
    const { key, shiftKey, altKey } = event;
    const isControl = event.ctrlKey || event.metaKey;
    if (key === "Enter" && (shiftKey || isControl || altKey)) this.evaluate(view, shiftKey ? "next" : altKey ? "insert" : "stay");
    else if (isControl && !shiftKey && !altKey && key.toLowerCase() === "s") view.save();
    else if (altKey && key === "ArrowUp") this.several.move(view, -1);
    else if (altKey && key === "ArrowDown") this.several.move(view, 1);
    else return false;
    return true;
  }

  /** @type {(view: CellView, then: "next" | "insert" | "stay") => Promise<void>} */
  async evaluate(view, then) {
    this.completions.close();
    const last = this.several.of(view).at(-1) ?? view;
    const next = then === "next" ? this.cells.beside(last, 1) : undefined;
    const evaluated = this.several.evaluate(view);
    this.cells.select(next ?? view);
    if (next || then === "stay") return;
    await this.actions.held.during(async () => (await evaluated) && this.actions.insertBelow(last, true));
  }

  /** @type {(event: KeyboardEvent, view: CellView) => boolean} */
  inText(event, view) {
    if (event.key === "Escape") {
      if (this.help.isOpen) this.help.close();
      else this.cells.select(view);
      return true;
    }
    if (view.text.readOnly) return false;
    if (event.key === "Tab" && !event.ctrlKey && !event.altKey) return this.tab(view, event.shiftKey);
    if (event.key === "Enter") return newLine(view);
    if (event.ctrlKey && event.key === "/") {
      comment(view);
      return true;
    }
    if (event.ctrlKey && event.shiftKey && ["-", "_"].includes(event.key)) {
      this.several.split(view);
      return true;
    }
    return event.key.startsWith("Arrow") && this.atEdge(event, view);
  }

  /** @type {(view: CellView, isBack: boolean) => boolean} */
  tab(view, isBack) {
    const { selectionStart: at, selectionEnd, value } = view.text;
    const isAfterWord = /\S/.test(value[at - 1] ?? "");
    if (isBack && at === selectionEnd && !view.isProse && wordAt(value, at)) this.help.open(view);
    else if (isBack || at !== selectionEnd) indent(view, isBack);
    else if (isAfterWord && view.page.sessions.get(view.cell.session)?.tab) this.completions.open(view);
    else insert(view, INDENT);
    return true;
  }

  /**
   * An arrow at the edge of a text goes to the text beside.
   * @type {(event: KeyboardEvent, view: CellView) => boolean}
   */
  atEdge(event, view) {
    const { selectionStart: at, selectionEnd, value } = view.text;
    if (at !== selectionEnd || event.shiftKey || event.ctrlKey || event.metaKey) return false;
    const by = event.key === "ArrowUp" && !value.slice(0, at).includes("\n") ? -1 : event.key === "ArrowDown" && !value.slice(at).includes("\n") ? 1 : 0;
    const beside = by ? this.cells.beside(view, by) : undefined;
    if (!beside || beside.isProse) return false;
    this.cells.edit(beside);
    const place = by < 0 ? beside.text.value.length : 0;
    beside.text.setSelectionRange(place, place);
    return true;
  }

  /** @type {(event: KeyboardEvent, view: CellView) => boolean} */
  command(event, view) {
    if (event.key === "a" && (event.ctrlKey || event.metaKey) && !event.altKey) {
      this.cells.choice.all();
      return true;
    }
    if (event.ctrlKey || event.metaKey || event.altKey) return false;
    const letter = event.key.length === 1 ? event.key.toLowerCase() : event.key;
    const key = event.shiftKey && Object.hasOwn(this.commands, `Shift+${letter}`) ? `Shift+${letter}` : letter;
    if (event.repeat && !STEPS.includes(letter)) return true;
    const isTwice = this.last.key === key && event.timeStamp - this.last.time < TWICE_WITHIN;
    const name = isTwice ? key + key : key;
    this.last = { key: isTwice ? "" : key, time: event.timeStamp };
    const does = Object.hasOwn(this.commands, name) ? this.commands[name] : Object.hasOwn(this.commands, key) ? this.commands[key] : undefined;
    does?.(view);
    return does !== undefined || Object.hasOwn(this.commands, key + key);
  }
}
