// Has formulas and Markdown set by workers, within a limit of time for each.

import { LONG } from "./latex.js";
import { NotAllowed, nodesOf } from "./nodes.js";

/** @typedef {import("./types").Tree} Tree */

/**
 * Trees; null of what can't be set, and undefined of what took too long.
 * @typedef {Tree[] | null | undefined} Found
 * @typedef {{number: number, kind: "tex" | "markdown", text: string, done: (found: Found) => void}} Job
 */

const STARTED_WITHIN = 20_000; // milliseconds
const SET_WITHIN = 1_500;
const SET_LATE_WITHIN = 10_000; // for what took longer than that: the machine may have been busy
const MOST_KEPT = 2_000;

/** The one script of the page's workers. The browser lets no other address become a script (`require-trusted-types-for`). */
function workerOf() {
  const address = new URL("setter-worker.js", import.meta.url).href;
  const trusted = /** @type {any} */ (globalThis).trustedTypes;
  const policy = trusted?.createPolicy("setter", {
    createScriptURL: (/** @type {string} */ asked) => {
      if (asked !== address) throw new Error("another script");
      return asked;
    },
  });
  return () => new Worker(policy ? policy.createScriptURL(address) : address, { type: "module" });
}

const start = workerOf();

/** Sets one text after the other, by a worker of its own. */
class Lane {
  /**
   * @param {number} limit of each text
   * @param {(job: Job) => void} takeLate gets what wasn't set within it
   */
  constructor(limit, takeLate) {
    this.limit = limit;
    this.takeLate = takeLate;
    /** @type {Job[]} */
    this.waiting = [];
    /** @type {Worker | undefined} */
    this.worker = undefined;
    this.isReady = false;
    this.startedWithin = STARTED_WITHIN;
    /** @type {ReturnType<typeof setTimeout> | undefined} */
    this.timer = undefined;
  }

  /** @param {Job} job */
  add(job) {
    this.waiting.push(job);
    if (this.waiting.length === 1) this.next();
  }

  /** The first job goes to the worker, and has its time from then on. */
  next() {
    clearTimeout(this.timer);
    const [job] = this.waiting;
    if (!job) return;
    this.worker ??= this.begin();
    this.timer = setTimeout(() => this.giveUp(), this.isReady ? this.limit : this.startedWithin);
    if (this.isReady) this.worker.postMessage({ number: job.number, kind: job.kind, text: job.text });
  }

  begin() {
    const one = start();
    one.addEventListener("message", ({ data }) => {
      if (this.worker !== one) return;
      if (data.number === 0) this.isReady = true;
      else if (this.waiting[0]?.number === data.number) this.waiting.shift()?.done(data.trees);
      this.next();
    });
    return one;
  }

  /** What takes too long leaves the lane, and a new worker takes the others. One that was slow to start had no text yet, and the next has longer. */
  giveUp() {
    const late = this.isReady ? this.waiting.shift() : undefined;
    if (!late) this.startedWithin *= 2;
    this.worker?.terminate();
    this.worker = undefined;
    this.isReady = false;
    if (late) this.takeLate(late);
    this.next();
  }
}

/** @type {Map<string, Promise<Found>>} */
const known = new Map();
let count = 0;
const late = new Lane(SET_LATE_WITHIN, (job) => {
  known.delete(job.kind + job.text); // who asks for it again has it tried again
  job.done(undefined);
});
const first = new Lane(SET_WITHIN, (job) => late.add(job)); // so no text waits for one that takes long

/** @type {(kind: "tex" | "markdown", text: string) => Promise<Found>} */
function treesOf(kind, text) {
  const key = kind + text;
  const found = known.get(key);
  if (found) return found;
  if (known.size >= MOST_KEPT) known.clear();
  count += 1;
  const number = count;
  const trees = /** @type {Promise<Found>} */ (new Promise((done) => first.add({ number, kind, text, done })));
  if (kind !== "tex" || text.length <= LONG) known.set(key, trees); // those of a long sum take megabytes
  return trees;
}

/**
 * Puts what is set into a place, if it is still wanted there; else the place stays as it is, with the text in it. False where it took too long.
 * @type {(place: HTMLElement, kind: "tex" | "markdown", text: string, isWanted?: () => boolean) => Promise<boolean>}
 */
export async function setInto(place, kind, text, isWanted = () => true) {
  const trees = await treesOf(kind, text);
  if (!trees || !isWanted()) return trees !== undefined;
  try {
    place.replaceChildren(nodesOf(trees, kind === "tex" && text.length > LONG));
    place.classList.add("set");
  } catch (error) {
    if (!(error instanceof NotAllowed)) throw error;
  }
  return true;
}
