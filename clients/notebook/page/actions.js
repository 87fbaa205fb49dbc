// What the buttons and keys do, by name.

import { ask } from "./talk.js";
import { byId } from "./dom.js";
import { stopsAtErrors } from "./errors.js";
import { Held } from "./held.js";

/** @typedef {import("./cell").CellView} CellView */
/** @typedef {import("./cells").Cells} Cells */
/** @typedef {import("./types").Reply} Reply */

const EVALUATED = "to be evaluated";
/** @type {Reply} */
const NOT_SAVED = { refused: "NotSaved" };

/** @type {(view: CellView) => string} */
const unsaved = (view) => `cell ${view.id} ${view.isKept ? "has a draft" : "is not saved"}`;

export class Actions {
  /**
   * @param {Cells} cells
   * @param {(text: string) => void} note
   */
  constructor(cells, note) {
    this.cells = cells;
    this.note = note;
    this.held = new Held();
    /** @type {Promise<unknown>} */
    this.evaluating = Promise.resolve(); // till the last call that evaluates several cells has its reply
  }

  /**
   * Does a call, and tells why it was refused.
   * @type {(call: string, members: Record<string, unknown>) => Promise<Reply>}
   */
  async ask(call, members) {
    const reported = await ask(call, members);
    this.note(reported.refused ? reported.says ?? reported.refused : reported.warning ?? "");
    return reported;
  }

  // ---- evaluations

  /** @type {(view: CellView) => Promise<boolean>} */
  async evaluate(view) {
    if (view.isProse) return this.isSaved(view);
    const reported = await view.risk(EVALUATED, async () => ((await this.isSaved(view)) ? this.ask("eval", { id: view.id }) : NOT_SAVED));
    return !reported.refused;
  }

  /**
   * Does a call that evaluates these cells, once the one before has its reply: two that are under way at once may come in either order.
   * @type {(views: CellView[], call: string, members: Record<string, unknown>) => Promise<Reply>}
   */
  evaluateEach(views, call, members) {
    const reported = this.evaluating.then(() => this.ask(call, { ...members, stops: stopsAtErrors() }));
    this.evaluating = reported.catch(() => undefined);
    for (const view of views) if (!view.isProse) view.risk(EVALUATED, () => reported);
    return reported;
  }

  /**
   * Saves a cell before something is done with it, so that nothing is done with another text than the one that is seen.
   * @type {(view: CellView) => Promise<boolean>}
   */
  async isSaved(view) {
    const isSaved = await view.save();
    if (!isSaved) this.note(`${unsaved(view)}, so nothing is done with it`);
    return isSaved;
  }

  /**
   * Saves what is typed, in all cells; false where one can't be saved.
   * @type {(views?: CellView[]) => Promise<boolean>}
   */
  async saveAll(views = this.cells.inOrder()) {
    for (const view of views) {
      if (!view.isDraft || (await view.save())) continue;
      this.note(`${unsaved(view)}, so nothing is evaluated`);
      this.cells.select(view);
      return false;
    }
    return true;
  }

  /** Evaluates what has no answer, or a stale one. */
  async evaluateStale() {
    if (!(await this.saveAll())) return;
    const reported = await this.ask("eval_stale", {});
    if (reported.count === 0 && !reported.warning) this.note("nothing is stale");
  }

  async evaluateAll() {
    if (await this.saveAll()) await this.evaluateEach(this.cells.inOrder(), "eval_from", { id: null });
  }

  /** @param {CellView} view */
  async evaluateFrom(view) {
    if (!(await this.saveAll())) return;
    const views = this.cells.inOrder();
    await this.evaluateEach(views.slice(views.indexOf(view)), "eval_from", { id: view.id });
  }

  async restartAll() {
    if (await this.saveIdle()) await this.evaluateEach(this.cells.inOrder(), "restart", { session: null });
  }

  /** @param {string} session */
  async restartSession(session) {
    if (!(await this.saveIdle())) return;
    await this.evaluateEach(this.cells.inOrder().filter((view) => view.cell.session === session), "restart", { session });
  }

  /** Before a restart: a cell that waits for its answer can't be saved, and has a draft. */
  saveIdle() {
    return this.saveAll(this.cells.inOrder().filter((view) => !view.waits));
  }

  /** @param {CellView} view */
  restart(view) {
    return view.isProse ? undefined : this.restartSession(view.cell.session);
  }

  /** @param {string} session */
  async interruptSession(session) {
    const reported = await this.ask("interrupt", { session });
    if (reported.outcome === "idle") this.note(`${session} is at nothing`);
    if (reported.outcome === "failed") this.note(`${session} could not be interrupted`);
    if (reported.dropped) this.note(`${reported.dropped} of ${session} that waited ${reported.dropped === 1 ? "was" : "were"} not asked`);
  }

  /** @param {string} session */
  stopSession(session) {
    return this.ask("stop", { session });
  }

  /** @param {CellView} view */
  interrupt(view) {
    return view.isProse ? undefined : this.interruptSession(view.cell.session);
  }

  /** @param {CellView} view */
  stop(view) {
    return view.isProse ? undefined : this.stopSession(view.cell.session);
  }

  /** @param {CellView} view */
  clear(view) {
    return view.risk("to be cleared", () => this.ask("clear", { id: view.id }));
  }

  // ---- cells

  /**
   * A new cell, which is selected when it is there. No session makes it prose.
   * @type {(after: number, session: string | null, isEdited?: boolean) => Promise<boolean>}
   */
  make(after, session, isEdited = false) {
    return this.held.during(async () => {
      const reported = await this.ask("new", { after, session, text: "" });
      const view = await this.cells.whenThere(reported.id);
      if (isEdited || session === null) this.cells.edit(view);
      else this.cells.select(view);
      return view !== undefined;
    });
  }

  /** @type {(view: CellView) => string | null} */
  sessionFor(view) {
    return view.isProse ? this.defaultSession() : view.cell.session;
  }

  /**
   * The session that a new cell gets where none is near: that of the list below, else none.
   * @returns {string | null}
   */
  defaultSession() {
    return byId("which", HTMLSelectElement).value || null;
  }

  /** @param {CellView} view */
  insertAbove(view) {
    return this.make(this.cells.beside(view, -1)?.id ?? 0, this.sessionFor(view));
  }

  /** @type {(view: CellView, isEdited?: boolean) => Promise<boolean>} */
  insertBelow(view, isEdited = false) {
    return this.make(view.id, this.sessionFor(view), isEdited);
  }

  addCell() {
    return this.make(this.cells.order.at(-1) ?? 0, this.defaultSession(), true);
  }

  addProse() {
    return this.make(this.cells.order.at(-1) ?? 0, null);
  }

  /** @param {CellView} view */
  moveUp(view) {
    return this.ask("move", { id: view.id, by: -1 });
  }

  /** @param {CellView} view */
  moveDown(view) {
    return this.ask("move", { id: view.id, by: 1 });
  }

  /** @param {number | null} number */
  restore(number) {
    return this.held.during(async () => {
      const reported = await this.ask("restore", { number });
      const made = await this.cells.whenThere(reported.id);
      this.cells.select(made);
      return made !== undefined;
    });
  }

  /**
   * Gives a cell another session; null makes it prose.
   * @type {(view: CellView, session: string | null) => Promise<void>}
   */
  async change(view, session) {
    if ((session === null && view.isProse) || session === view.cell.session) return;
    await this.held.during(async () => {
      if (!(await this.isSaved(view))) return false;
      const reported = await this.ask("change", { id: view.id, session });
      const made = await this.cells.whenThere(reported.id ?? view.id);
      if (made !== this.cells.selected) this.cells.select(made); // who is in its text already stays there
      if (made) this.cells.toolbar.show(made);
      return !reported.refused;
    });
  }

  /** @param {CellView} view */
  toggleText(view) {
    view.output.toggle();
    this.cells.toolbar.show(view);
  }

  /** @param {CellView} view */
  showMore(view) {
    return view.output.showMore();
  }

  /** @param {CellView} view */
  keepMine(view) {
    return view.keepMine();
  }

  /** @param {CellView} view */
  takeTheirs(view) {
    view.takeTheirs();
  }

  reopen() {
    return this.ask("reopen", {});
  }
}
