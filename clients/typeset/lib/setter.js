"use strict";
// Has texts set by KaTeX or markdown-it in a process of its own, within limits of time and memory, so that no text stops the others.

const { fork } = require("node:child_process");
const path = require("node:path");

/** @typedef {import("node:child_process").ChildProcess} ChildProcess */

/**
 * What sets texts: its name, Debian's package with it, the file where it is, the script of its process, and how what that tells is read.
 * @template Question, Answer
 * @typedef {{
 *   name: string, debian: string, file: string, script: string, sizeOf: (question: Question) => number, answerIn: (reported: any) => Answer | null,
 * }} Setter
 */

/** @typedef {{reason: string}} Reason why there is no answer */

const MEGABYTES = 256;
const STARTING = 20_000; // milliseconds for its first start
const ROUNDS = [1_000, 8_000]; // milliseconds for a text; those that take longer come again after all others

/** @type {Reason} */
const LATE = { reason: "it takes too long" };
/** @type {Reason} */
const BROKEN = { reason: "it broke off" };

/** What sets texts can't be started. */
class NotStarted extends Error {}

/**
 * What a child says next: a message, `BROKEN` where it ends, `LATE` where nothing comes.
 * @type {(child: ChildProcess, milliseconds: number) => Promise<any>}
 */
function nextOf(child, milliseconds) {
  return new Promise((resolve) => {
    /** @type {(reported: unknown) => void} */
    const settle = (reported) => {
      clearTimeout(timer);
      child.removeAllListeners();
      child.on("error", () => {}); // one that comes later says nothing new
      resolve(reported);
    };
    const timer = setTimeout(() => settle(LATE), milliseconds);
    child.once("message", settle);
    child.once("exit", () => settle(BROKEN));
    child.once("error", () => settle(BROKEN));
  });
}

/** @template Question, Answer */
class Helper {
  /** @param {Setter<Question, Answer>} setter */
  constructor(setter) {
    this.setter = setter;
    this.hasStarted = false;
    /** @type {ChildProcess | null} */
    this.child = null;
  }

  /**
   * The process, started once more where there is none. null where it doesn't start, though it did before.
   * @type {(milliseconds: number) => Promise<ChildProcess | null>}
   */
  async started(milliseconds) {
    if (this.child?.connected) return this.child;
    this.child = fork(path.join(__dirname, this.setter.script), [this.setter.file], {
      cwd: "/", env: {}, stdio: ["ignore", "ignore", "ignore", "ipc"],
      execArgv: [`--max-old-space-size=${MEGABYTES}`, "--disallow-code-generation-from-strings"],
    });
    if (await nextOf(this.child, this.hasStarted ? milliseconds : STARTING) !== "ready") this.stop();
    if (!this.child && !this.hasStarted) throw this.notStarted();
    this.hasStarted = true;
    return this.child;
  }

  /** @type {(question: Question, milliseconds: number) => Promise<Answer | Reason>} */
  async ask(question, milliseconds) {
    const child = await this.started(milliseconds);
    if (!child) return LATE;
    const next = nextOf(child, milliseconds);
    child.send(/** @type {any} */ (question), () => {});
    const reported = await next;
    if (reported === LATE || reported === BROKEN) this.stop();
    if (reported === LATE) return LATE;
    const reason = reported !== BROKEN && typeof reported?.reason === "string" ? reported.reason : `${this.setter.name} broke off`;
    return this.setter.answerIn(reported) ?? { reason };
  }

  notStarted() {
    const { name, file, debian } = this.setter;
    return new NotStarted(`${name} can't be started from ${file}; Debian has it in the package ${debian}`);
  }

  stop() {
    this.child?.kill("SIGKILL");
    this.child = null;
  }
}

/**
 * Answers to questions, each at its question's place. After the deadline each is `LATE`.
 * @template Question, Answer
 * @param {Setter<Question, Answer>} setter
 * @param {Question[]} questions
 * @param {number} deadline
 * @returns {Promise<(Answer | Reason)[]>}
 */
async function answersTo(setter, questions, deadline) {
  const helper = new Helper(setter);
  /** @type {(Answer | Reason)[]} */
  const answers = questions.map(() => LATE);
  try {
    for (const limit of questions.length > 0 ? ROUNDS : []) await oneRound(helper, questions, answers, limit, deadline);
  } finally {
    helper.stop();
  }
  return answers;
}

/**
 * Asks what has no answer yet: short texts first, since only long ones take long.
 * @template Question, Answer
 * @param {Helper<Question, Answer>} helper
 * @param {Question[]} questions
 * @param {(Answer | Reason)[]} answers
 * @param {number} limit
 * @param {number} deadline
 */
async function oneRound(helper, questions, answers, limit, deadline) {
  const { sizeOf } = helper.setter;
  const order = [...questions.keys()].sort((one, other) => sizeOf(questions[one]) - sizeOf(questions[other]));
  for (const index of order) {
    const rest = deadline - Date.now();
    if (answers[index] === LATE && rest > 0) answers[index] = await helper.ask(questions[index], Math.min(limit, rest));
  }
}

module.exports = { answersTo, NotStarted };
