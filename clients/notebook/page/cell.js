// A cell in the page. `base` is the text that is known to be in the file: the page shows "saved" where its own text is the same. `kept` is the
// draft that is known to be on the disk beside it, while the cell can't have another text.

import { ask } from "./talk.js";
import { visible } from "./dom.js";
import { Layer } from "./layer.js";
import { languageOf } from "./languages.js";
import { Reading } from "./reading.js";
import { answerState, textState, took } from "./said.js";
import { AT_FIRST, conflictOf, describe, emptyShape, fitRows, isOther, partsOf, show } from "./shape.js";

/** @typedef {import("./types").Cell} Cell */
/** @typedef {import("./types").Reply} Reply */
/** @typedef {import("./types").Session} Session */

/**
 * What a cell knows of its page.
 * @typedef {{isThere: boolean, isLooking: boolean, sessions: Map<string, Session>, note: (text: string) => void, news: import("./news").News}} Page
 */

const SAVED_AFTER = 1_000; // milliseconds without a key
const SAVED_WITHIN = 2_500; // milliseconds of the first key that isn't saved: half a second is for the disk, so that it is saved within three
const UNKNOWN = ["Ended", "TimedOut", "Unreached"]; // refusals after which a text may be saved or not

export class CellView {
  /**
   * @param {Page} page
   * @param {Cell} cell
   * @param {number} at
   * @param {[boolean, boolean]} mark
   */
  constructor(page, cell, at, mark) {
    this.page = page;
    this.id = cell.id;
    this.cell = cell;
    this.base = cell.input;
    /** @type {string | null} */
    this.kept = null;
    this.changedAt = 0; // number of this page's last change of it
    this.reportedAt = 0; // up to which change it was reported last
    this.asked = 0; // calls without a reply by which the answer may go
    this.askedFor = ""; // what the last one is to do
    this.isElsewhere = false;
    this.trouble = "";
    /** @type {Set<string>} */
    this.tried = new Set(); // texts of which it isn't known whether they were saved
    /** @type {[boolean, boolean]} */
    this.mark = mark; // of an answer: whether it is stale, and whether its interpreter has ended
    /** @type {Promise<boolean> | undefined} */
    this.saving = undefined;
    /** @type {ReturnType<typeof setTimeout> | undefined} */
    this.timer = undefined;
    /** @type {number | undefined} */
    this.typedAt = undefined; // when the first key came that isn't saved
    this.said = AT_FIRST;
    this.box = emptyShape();
    this.box.id = `cell-${this.id}`;
    /** @type {import("./shape").Parts | undefined} */
    this.own = undefined; // when they were wanted
    this.unseen = cell.input; // its text till then
    /** @type {Layer | undefined} */
    this.layer = undefined; // when it was seen
    /** @type {Reading | undefined} */
    this.reading = undefined; // of prose: what it says
    /** @type {HTMLElement | undefined} */
    this.conflict = undefined;
    this.update(cell, at);
  }

  // ---- its parts, which are made when they are wanted: most cells of a long worksheet aren't seen

  grow() {
    if (this.own) return;
    this.own = partsOf(this.box, this.id, this.page.isLooking);
    this.own.text.value = this.unseen;
    this.said = AT_FIRST;
    this.draw();
  }

  get parts() {
    this.grow();
    return /** @type {import("./shape").Parts} */ (this.own);
  }

  get text() {
    return this.parts.text;
  }

  get output() {
    return this.parts.output;
  }

  /** The text that stands here. */
  get value() {
    return this.own ? this.own.text.value : this.unseen;
  }

  set value(text) {
    if (this.own) this.own.text.value = text;
    else this.unseen = text;
  }

  get isProse() {
    return this.page.sessions.get(this.cell.session)?.isProse ?? false;
  }

  get language() {
    return this.isProse ? "prose" : languageOf(this.page.sessions.get(this.cell.session)?.words ?? "");
  }

  /** Whether something stands here that is not in the file, or a draft is there that doesn't stand here. */
  get isDraft() {
    return this.isElsewhere || this.value !== this.base || this.kept !== null;
  }

  /** Whether what stands here is kept as a draft. */
  get isKept() {
    return this.value === this.kept;
  }

  /** Whether what stands here is on no disk. */
  get isUnsaved() {
    return this.value !== (this.kept ?? this.base);
  }

  /** What the cell was given elsewhere. */
  get theirs() {
    const { input, draft } = this.cell;
    return draft && draft.text !== this.kept ? draft.text : input;
  }

  get waits() {
    return this.cell.state === "running" || this.cell.state === "queued";
  }

  /**
   * What was asked and may have taken the answer away, until the server says what came of it.
   * @returns {string | undefined}
   */
  get unsettled() {
    const isLate = this.cell.state === "answered" && this.reportedAt < this.changedAt;
    return !this.waits && (this.asked > 0 || isLate) ? this.askedFor : undefined;
  }

  // ---- what the server tells

  /**
   * All is reported again. Another server counts changes from its start on.
   * @param {boolean} isOther
   */
  begin(isOther) {
    this.mark = [false, false];
    if (isOther) this.changedAt = this.reportedAt = 0;
  }

  /**
   * Takes what the cell is now. What was reported before this page changed it last is older than what the page knows.
   * @type {(cell: Cell, at: number) => void}
   */
  update(cell, at) {
    if (at < this.changedAt) return;
    const waited = this.waits;
    this.cell = cell;
    this.reportedAt = at;
    this.takeText(cell);
    const name = this.isProse ? `Prose ${this.id}` : `Cell ${this.id}, ${cell.session}`;
    if (this.box.ariaLabel !== name) {
      this.box.ariaLabel = name;
      this.box.classList.toggle("prose", this.isProse);
    }
    if (this.own) this.draw();
    else this.say();
    if (this.isDraft && !this.waits && (waited || this.trouble || this.isKept)) this.saveLater();
  }

  /** Shows what the cell is now. */
  draw() {
    const { cell, isProse, parts } = this;
    const session = isProse ? "prose" : cell.session, time = took(cell);
    if (parts.session.textContent !== session) parts.session.textContent = session;
    parts.prompt.textContent = isProse ? "" : visible(cell.prompt ?? "> ");
    parts.output.update(isProse ? null : cell.output, cell.isOld);
    if (parts.took.textContent !== time) parts.took.textContent = time;
    this.showProse();
    this.fit();
    this.say();
  }

  /** @param {Cell} cell */
  takeText({ input, draft }) {
    const kept = draft?.text ?? null;
    if (input === this.base && kept === this.kept && !this.isElsewhere) return;
    const isNone = !this.isElsewhere && !this.isUnsaved; // of this page alone
    if (isNone) this.value = kept ?? input;
    const isKnown = isNone || (this.knows(input) && (kept === null || this.knows(kept)));
    this.isElsewhere = !isKnown || (draft !== null && draft.base !== input);
    if (isKnown) {
      this.base = input;
      this.kept = kept;
      this.tried.clear();
    }
    if (this.isElsewhere) this.offerBoth();
  }

  /**
   * Whether it is no other page's text.
   * @param {string} text
   */
  knows(text) {
    return text === this.base || text === this.kept || text === this.value || this.tried.has(text);
  }

  /** @param {[boolean, boolean]} mark */
  takeMark(mark) {
    if (String(mark) === String(this.mark)) return;
    this.mark = mark;
    this.say();
  }

  // ---- what is shown

  say() {
    const [isStale, hasEnded] = this.mark;
    const { isDraft, isKept, isElsewhere, trouble, page: { isThere } } = this;
    const text = textState({ isDraft, isKept, isElsewhere, trouble, isSaving: this.saving !== undefined, isThere });
    const answer = this.isProse ? ["", ""] : answerState(this.cell, { isThere, asked: this.unsettled, isStale, hasEnded });
    const state = this.unsettled === undefined ? this.cell.state : "asked";
    const theirs = this.isElsewhere ? visible(this.theirs) : "";
    const was = this.said;
    this.said = { text, answer, state, theirs };
    if (this.own && isOther(text, was.text)) show(this.own.textState, text);
    if (text[0] !== was.text[0]) this.box.dataset.text = text[0];
    if (this.own && isOther(answer, was.answer)) show(this.own.answerState, answer);
    describe(this.box, [text[1], answer[1], this.cell.output?.isError ? "Error" : ""]);
    if (state !== was.state) this.box.dataset.state = state;
    this.conflict?.toggleAttribute("hidden", !this.isElsewhere);
    if (this.conflict && theirs !== was.theirs) this.conflict.querySelector("pre")?.replaceChildren(theirs);
  }

  /** Says how long it has been running, while it is. */
  tick() {
    if (this.cell.state === "running" && this.page.isThere) this.say();
  }

  /** The cell has come into view: from now on its text is drawn in colours. */
  paint() {
    this.layer ??= new Layer(this.text);
    this.layer.draw(this.language);
  }

  /** Makes the text as high as its lines, where the browser doesn't by itself, and draws it. */
  fit() {
    if (this.layer) this.paint();
    fitRows(this.text);
  }

  showProse() {
    if (!this.isProse) this.reading?.place.remove();
    this.reading = this.isProse ? this.reading ?? new Reading(this.box) : undefined;
    this.reading?.show(this.value);
  }

  offerBoth() {
    if (!this.conflict) {
      this.conflict = conflictOf();
      this.parts.head.after(this.conflict);
    }
  }

  // ---- saving

  /** A key has changed the text. */
  typed() {
    this.trouble = "";
    this.fit();
    this.say();
    this.saveLater();
  }

  /** Saves when no key has come for a while, and then what was typed has waited long enough. */
  saveLater() {
    clearTimeout(this.timer);
    this.typedAt ??= performance.now();
    const left = this.typedAt + SAVED_WITHIN - performance.now();
    this.timer = setTimeout(() => this.saveIfFit(), Math.max(0, Math.min(SAVED_AFTER, left)));
  }

  /** Saves where nobody has to be asked. */
  saveIfFit() {
    if (this.isDraft && !this.isElsewhere) this.save();
  }

  /**
   * Saves the text; true when what stands in the page is in the file. While the cell waits for its answer it is kept as a draft.
   * @returns {Promise<boolean>}
   */
  async save() {
    clearTimeout(this.timer);
    this.typedAt = undefined;
    while (this.saving) await this.saving;
    if (!this.isDraft) return true;
    if (this.isElsewhere || (this.waits && this.isKept)) return false;
    const text = this.text.value;
    this.saving = this.send(text);
    this.say();
    const isOver = await this.saving;
    this.saving = undefined;
    this.say();
    if (isOver && this.text.value !== text) return this.save();
    return isOver && !this.isDraft;
  }

  /** @param {string} text */
  async send(text) {
    this.tried.add(text); // an event may tell of it before the reply
    const reported = await ask("set", { id: this.id, text, base: this.base, draft: this.kept });
    this.trouble = reported.refused ? reported.says ?? "" : "";
    const mayBeKept = this.kept !== null || UNKNOWN.includes(reported.refused ?? "");
    if (reported.refused && !mayBeKept) this.tried.delete(text);
    if (reported.refused) return false;
    const at = reported.at ?? 0;
    if (at <= this.reportedAt) return true; // an event was quicker, and may tell of more
    if (reported.isDraft) this.isKeptNow(text, at);
    else this.isSavedNow(text, at);
    this.showProse();
    return true;
  }

  /**
   * The text is on the disk as the draft of a cell that waits.
   * @type {(text: string, at: number) => void}
   */
  isKeptNow(text, at) {
    this.cell = { ...this.cell, draft: { base: this.base, text } };
    this.changedAt = Math.max(this.changedAt, at);
    this.kept = text;
    this.isElsewhere = false;
    this.tried.clear();
  }

  /**
   * The file has this text, by a call of this page. What was answered is the answer to an earlier one.
   * @type {(text: string, at: number) => void}
   */
  isSavedNow(text, at) {
    if (text !== this.base) {
      this.cell = { ...this.cell, input: text, state: /** @type {const} */ ("empty"), reason: null, prompt: null, isOld: true, took: null };
      this.parts.took.textContent = "";
    }
    this.cell = { ...this.cell, draft: null };
    this.kept = null;
    this.changedAt = Math.max(this.changedAt, at);
    this.base = text;
    this.isElsewhere = false;
    this.tried.clear();
    this.output.update(this.cell.output, this.cell.isOld);
    this.say();
  }

  // ---- evaluations

  /**
   * Does a call by which the answer may go. From now on until the server says what came of that, the answer isn't shown as one of the file.
   * @type {(words: string, call: () => Promise<Reply>) => Promise<Reply>}
   */
  async risk(words, call) {
    this.asked += 1;
    this.askedFor = words;
    this.say();
    const reported = await call();
    this.asked -= 1;
    if (reported.at !== undefined) this.changedAt = Math.max(this.changedAt, reported.at);
    if (UNKNOWN.includes(reported.refused ?? "") && this.cell.state === "answered") this.cell = { ...this.cell, state: /** @type {const} */ ("doubtful") };
    this.say();
    return reported;
  }

  // ---- two pages

  /** The text of this page goes over that of the other one. */
  keepMine() {
    const { input, draft } = this.cell;
    this.base = input;
    this.kept = draft === null || this.isKept ? null : draft.text; // a draft that stands here is to be saved as it is
    this.isElsewhere = false;
    return this.save();
  }

  takeTheirs() {
    const { input, draft } = this.cell;
    this.text.value = this.theirs;
    this.base = input;
    this.kept = draft?.text ?? null;
    this.isElsewhere = this.isKept && draft?.base !== input;
    this.fit();
    this.showProse();
    this.say();
    this.saveIfFit(); // a draft that isn't wanted goes
  }
}
