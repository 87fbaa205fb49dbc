// Cells that are cut and copied. The browser puts them on the system's clipboard, as text and as cells; V has what this notebook copied last.

/** @typedef {import("./cell").CellView} CellView */

/**
 * A cell that was copied; no session is prose. `of` is its number, where it is of this page.
 * @typedef {{session: string | null, text: string, of?: number}} Copied
 */

const KIND = "application/x-tmhost-cells";
const KEPT = "tmhost-cells";

/** @type {(event: Event) => boolean} */
const isInText = ({ target }) => target instanceof Element && target.closest("textarea, input, dialog[open]") !== null;

/**
 * The cells that a text of JSON has, as this page or Jupyter writes them; undefined where it is none.
 * @type {(text: string) => Copied[] | undefined}
 */
function cellsIn(text) {
  try {
    const reported = JSON.parse(text);
    const cells = Array.isArray(reported) ? reported : reported?.cells;
    return Array.isArray(cells) && cells.length > 0 ? cells.map(copiedOf) : undefined;
  } catch {
    return undefined;
  }
}

/** @type {(cell: any) => Copied} */
function copiedOf(cell) {
  const text = cell.text ?? (Array.isArray(cell.source) ? cell.source.join("") : cell.source);
  const isProse = cell.session === null || cell.cell_type === "markdown" || cell.cell_type === "raw";
  if (typeof text !== "string") throw new TypeError("no cell");
  return { session: isProse ? null : String(cell.session ?? ""), text: text.replaceAll("\r\n", "\n") };
}

export class Clipboard {
  /**
   * @param {() => CellView[]} chosen
   * @param {() => boolean} mayCut
   * @param {(views: CellView[]) => void} cut
   * @param {(cells: Copied[]) => void} paste
   */
  constructor(chosen, mayCut, cut, paste) {
    this.chosen = chosen;
    this.mayCut = mayCut;
    this.cut = cut;
    this.paste = paste;
    this.isAsked = false; // by a key of the page, which is for cells whatever is chosen in an answer
    /** @type {Copied[]} */
    this.own = []; // where the browser keeps nothing for the page
    document.addEventListener("copy", (event) => this.take(event));
    document.addEventListener("cut", (event) => this.take(event, true) && this.cut(this.chosen()));
    document.addEventListener("paste", (event) => this.give(event));
  }

  /** What was copied last by a page of this notebook. */
  get kept() {
    try {
      return /** @type {Copied[]} */ (JSON.parse(localStorage.getItem(KEPT) ?? "null") ?? this.own);
    } catch {
      return this.own;
    }
  }

  /** Copies the chosen cells, as Control-C does. */
  copy() {
    this.isAsked = true;
    const isDone = document.execCommand("copy");
    if (this.isAsked || !isDone) this.keep(); // the browser had no copy made
    this.isAsked = false;
  }

  keep() {
    this.own = this.chosen().map((view) => ({ session: view.isProse ? null : view.cell.session, text: view.value, of: view.id }));
    try {
      localStorage.setItem(KEPT, JSON.stringify(this.own));
    } catch {
      // There is more than a browser keeps for a page: this page has it yet.
    }
    return this.own;
  }

  /**
   * Puts the chosen cells on the clipboard; true where the event was for cells.
   * @type {(event: ClipboardEvent, isCut?: boolean) => boolean}
   */
  take(event, isCut = false) {
    const isForText = isInText(event) || getSelection()?.isCollapsed === false;
    if ((isForText && !this.isAsked) || !event.clipboardData || this.chosen().length === 0) return false;
    if (isCut && !this.mayCut()) return false;
    const cells = this.keep();
    this.isAsked = false;
    event.clipboardData.setData("text/plain", cells.map(({ text }) => text).join("\n\n"));
    event.clipboardData.setData(KIND, JSON.stringify(cells.map(({ session, text }) => ({ session, text }))));
    event.preventDefault();
    return true;
  }

  /** @param {ClipboardEvent} event */
  give(event) {
    if (isInText(event) || !event.clipboardData) return;
    const text = event.clipboardData.getData("text/plain").replaceAll("\r\n", "\n");
    const cells = cellsIn(event.clipboardData.getData(KIND)) ?? cellsIn(text) ?? (text.trim() ? [{ session: "", text }] : []);
    event.preventDefault();
    if (cells.length > 0) this.paste(this.withNumbers(cells));
  }

  /**
   * Cells that this page has copied are known by their texts: their answers are shown in grey.
   * @type {(cells: Copied[]) => Copied[]}
   */
  withNumbers(cells) {
    const own = this.own;
    const isOwn = own.length === cells.length && own.every((one, at) => one.text === cells[at].text && one.session === cells[at].session);
    return isOwn ? own : cells;
  }
}
