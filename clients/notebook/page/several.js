// What is done to several cells at once, in steps that can be taken back.

import { Clipboard } from "./clipboard.js";

/** @typedef {import("./actions").Actions} Actions */
/** @typedef {import("./cell").CellView} CellView */
/** @typedef {import("./clipboard").Copied} Copied */
/** @typedef {import("./types").Change} Change */

export class Several {
  /** @param {Actions} actions */
  constructor(actions) {
    this.actions = actions;
    this.cells = actions.cells;
    this.clipboard = new Clipboard(() => this.cells.choice.views, () => this.mayCut(), () => this.remove("cut"), (copied) => this.paste(copied));
  }

  /**
   * The cells that a command to one is for: all that are chosen, where it is one of them.
   * @type {(view: CellView) => CellView[]}
   */
  of(view) {
    const { views } = this.cells.choice;
    return views.includes(view) ? views : [view];
  }

  /**
   * Does a step, when what is typed in these cells is saved, and selects what came of it.
   * @type {(what: string, views: CellView[], change: () => Partial<Change>) => Promise<boolean>}
   */
  step(what, views, change) {
    const { actions, cells } = this;
    return actions.held.during(async () => {
      for (const view of views) if (!(await actions.isSaved(view))) return false;
      const reported = await actions.ask("step", { what, new: [], set: [], move: [], remove: [], ...change() });
      if (reported.refused) return false;
      await this.follow(reported);
      return cells.selected !== undefined;
    });
  }

  /**
   * Waits until the page shows what came of a step, so that the next key finds it, and selects that.
   * @param {import("./types").Reply} reported
   */
  async follow({ ids = [], gone = [] }) {
    await this.cells.whenGone(gone);
    await this.select(ids);
  }

  /**
   * Selects cells when they are there.
   * @type {(ids: number[]) => Promise<void>}
   */
  async select(ids) {
    const { cells } = this;
    const found = (await Promise.all(ids.map((id) => cells.whenThere(id)))).filter((view) => view !== undefined);
    if (found.length === 0) return;
    cells.choice.drop();
    cells.select(found[0]);
    if (found.length > 1) cells.choice.extend(found.at(-1));
  }

  // ---- steps

  /** @type {(what?: string, view?: CellView) => Promise<boolean>} */
  remove(what = "removal", view = this.cells.selected) {
    const views = view ? this.of(view) : [];
    return this.step(`${what} of ${counted(views.length)}`, views, () => ({ remove: views.map(({ id }) => ({ id })) }));
  }

  cut() {
    if (!this.mayCut()) return Promise.resolve(false);
    this.clipboard.copy();
    return this.remove("cut");
  }

  /** Where a cell can't go the clipboard keeps what it has. */
  mayCut() {
    const waiting = this.cells.choice.views.find((view) => view.waits);
    if (waiting) this.actions.note(`cell ${waiting.id} waits for its answer, so nothing is done`);
    return waiting === undefined;
  }

  copy() {
    this.clipboard.copy();
    this.actions.note(`${counted(this.cells.choice.views.length)} copied`);
  }

  /** @type {(copied?: Copied[], isAbove?: boolean) => Promise<boolean>} */
  paste(copied = this.clipboard.kept, isAbove = false) {
    const { cells, actions } = this;
    const views = cells.choice.views;
    const after = isAbove ? cells.beside(views[0], -1)?.id ?? 0 : views.at(-1)?.id ?? 0;
    const fallback = cells.selected ? actions.sessionFor(cells.selected) : actions.defaultSession();
    const sessions = cells.page.sessions;
    const made = copied.map(({ session, text, of }) => {
      const name = session === null || sessions.has(session) ? session : fallback;
      return { after, session: name, text, ...(of === undefined ? {} : { of }) };
    });
    if (made.length === 0) {
      actions.note("no cell was copied or cut here; Control-V pastes those of other worksheets, and text");
      return Promise.resolve(false);
    }
    return this.step(`paste of ${counted(made.length)}`, [], () => ({ new: made }));
  }

  /** @param {CellView} view */
  duplicate(view) {
    const views = this.of(view);
    const after = views.at(-1)?.id ?? 0;
    return this.step(`copy of ${counted(views.length)}`, views, () => ({
      new: views.map(({ id, cell, isProse, text }) => ({ after, session: isProse ? null : cell.session, text: text.value, of: id })),
    }));
  }

  /**
   * Cuts a cell in two at the cursor, or in three around what is chosen of its text.
   * @type {(view: CellView) => Promise<boolean>}
   */
  split(view) {
    const { value, selectionStart, selectionEnd } = view.text;
    const cuts = [0, ...new Set([selectionStart, selectionEnd]), value.length];
    const parts = cuts.slice(1).map((end, at) => value.slice(cuts[at], end).replace(/^\n+|\n+$/g, ""));
    const [first, ...others] = parts;
    const session = view.isProse ? null : view.cell.session;
    return this.step("split", [view], () => ({
      new: others.map((text) => ({ after: view.id, session, text })), set: [{ id: view.id, base: value, text: first }],
    }));
  }

  /**
   * Makes one cell of those that are chosen, or of one and the cell below it.
   * @type {(view: CellView) => Promise<boolean>}
   */
  async merge(view) {
    const chosen = this.of(view), below = this.cells.beside(view, 1);
    const views = chosen.length > 1 ? chosen : below ? [view, below] : [];
    const [first, ...others] = views;
    if (!first) return false;
    if (others.some((one) => one.cell.session !== first.cell.session)) {
      this.actions.note("cells of several sessions can't be one");
      return false;
    }
    return this.step(`merge of ${counted(views.length)}`, views, () => ({
      set: [{ id: first.id, base: first.value, text: views.map((one) => one.value).join(first.isProse ? "\n\n" : "\n") }],
      remove: others.map(({ id }) => ({ id })),
    }));
  }

  /**
   * Moves cells up or down: the one beside them goes to their other side.
   * @type {(view: CellView, by: 1 | -1) => Promise<unknown>}
   */
  async move(view, by) {
    const views = this.of(view);
    if (views.length === 1) return by < 0 ? this.actions.moveUp(view) : this.actions.moveDown(view);
    const beside = this.cells.beside(by < 0 ? views[0] : views.at(-1), by);
    if (!beside) return false;
    const after = by < 0 ? views.at(-1)?.id ?? 0 : this.cells.beside(views[0], -1)?.id ?? 0;
    return this.actions.ask("step", { what: "move", new: [], set: [], move: [{ id: beside.id, after }], remove: [] });
  }

  /**
   * Gives cells another session, null for prose.
   * @type {(view: CellView, session: string | null) => Promise<unknown>}
   */
  change(view, session) {
    const views = this.of(view);
    if (views.length === 1) return this.actions.change(view, session);
    const others = views.filter((one) => (session === null ? !one.isProse : one.cell.session !== session));
    return this.step("another session", others, () => ({
      new: others.map((one) => ({ after: one.id, session, text: one.value, of: one.id })), remove: others.map(({ id }) => ({ id })),
    }));
  }

  /** @param {CellView} view */
  async evaluate(view) {
    let isAsked = true;
    for (const one of this.of(view)) isAsked = (await this.actions.evaluate(one)) && isAsked;
    return isAsked;
  }

  /**
   * Gives a cell the text that it had after a change, or makes a new one of it where it isn't there any more. The answer of then is shown in grey.
   * @type {(cell: import("./types").Then, at: number) => Promise<boolean>}
   */
  takeBack(cell, at) {
    const view = this.cells.views.get(cell.id), then = { at, id: cell.id }, text = cell.input;
    if (!view) {
      const session = cell.isProse ? null : cell.session;
      return this.step("an earlier cell", [], () => ({ new: [{ after: cell.after, session, text, then }] }));
    }
    if (view.value === text) {
      this.actions.note(`cell ${cell.id} has this text: nothing was changed`);
      return Promise.resolve(false);
    }
    return this.step("an earlier text", [view], () => ({ set: [{ id: view.id, base: view.value, text, then }] }));
  }

  // ---- taken back, and done again

  /** @param {boolean} isBack */
  go(isBack) {
    return this.actions.held.during(async () => {
      const reported = await this.actions.ask("undo", { isBack });
      if (reported.refused) return false;
      await this.follow(reported);
      this.actions.note(reported.says ?? "");
      return this.cells.selected !== undefined;
    });
  }
}

/** @type {(count: number) => string} */
const counted = (count) => (count === 1 ? "one cell" : `${count} cells`);
