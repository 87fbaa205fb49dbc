"use strict";
// A page with its formulas and its prose set, and what is left of them.

const { spansOf, proseOf, proseSection, textOf, escapedText, pageWith, STYLE, PROSE_STYLE } = require("./page.js");
const { load, partsOf, wordsOfKatex, piecesOf, isSeen } = require("./latex.js");
const { answersTo } = require("./setter.js");
const { mathOf } = require("./mathml.js");
const { piecesOf: piecesOfProse } = require("./prose.js");
const { Refused } = require("./refused.js");

/**
 * @typedef {import("./latex.js").Part} Part
 * @typedef {import("./child.js").Question} Question
 * @typedef {import("./child.js").Answer} Answer
 * @typedef {import("./reader.js").Prose} Text
 * @typedef {import("./reader.js").Read} Read
 * @typedef {{html: string} | {tex: string, question: Question, fallback?: string}} Asked
 *   HTML, or a formula with what is asked of KaTeX, and what stands in its place where it can't be set
 * @typedef {{start: number, end: number, kind: "formula" | "prose", text: string, parts: Asked[], reason?: string}} Found
 * @typedef {{kind: "formula" | "prose", text: string, reason: string}} Left what stays as it is, or a formula of prose as its TeX
 * @typedef {{katex: string, markdown: string, isProse: (session: string) => boolean}} Means files of both libraries, and which sessions are prose
 */

const LONGEST_FACTOR = 200; // characters of MathML for each of TeX, so that a page grows by no more; of HTML for each of prose
const LONGEST_REST = 2_000;
const LONGEST_PIECE = 20_000; // characters of a formula, or of a piece of one
const NO_TEXT = "no text of an export"; // said of what stands there, which is shown as it is

/** @type {(text: string) => number} */
function longestFor(text) {
  return LONGEST_FACTOR * text.length + LONGEST_REST;
}

/** @type {(file: string) => import("./setter.js").Setter<Question, Answer>} */
const katexOf = (file) => ({
  name: "KaTeX", debian: "katex", file, script: "child.js", sizeOf: ({ tex }) => tex.length,
  answerIn: (reported) => (typeof reported?.markup === "string" ? { markup: reported.markup } : null),
});

/** @type {(file: string) => import("./setter.js").Setter<Text, Read>} */
const markdownOf = (file) => ({
  name: "markdown-it", debian: "libjs-markdown-it", file, script: "reader.js", sizeOf: ({ text }) => text.length,
  answerIn: (reported) => (Array.isArray(reported?.trees) ? { trees: reported.trees } : null),
});

/** @type {(tex: string, display: boolean) => {tex: string, question: Question}} */
function askedFormula(tex, display) {
  const words = wordsOfKatex(tex);
  return { tex, question: { tex: words, display, longest: longestFor(words) } };
}

/**
 * A part of a block. A formula that has its line for itself gets the room of one, as between double dollars. Of a long sum each term is a formula of its
 * own, since browsers break lines between formulas, and in none.
 * @type {(part: Part, alone: boolean) => Asked[]}
 */
function asked(part, alone) {
  if (part.kind === "words") return [{ html: escapedText(part.text) }];
  const display = part.display || alone;
  const words = wordsOfKatex(part.tex), pieces = piecesOf(words, display, 0) ?? [words];
  if (pieces.length > 1) return pieces.map((piece) => askedFormula(piece, false));
  if (words.length > LONGEST_PIECE) throw new Refused(`more than ${LONGEST_PIECE} characters, and no sign between terms at which it could be broken`);
  return [askedFormula(part.tex, display)];
}

/**
 * What a task gives, or why it is refused.
 * @template T
 * @type {(task: () => T) => T | {reason: string}}
 */
function orReason(task) {
  try {
    return task();
  } catch (error) {
    if (error instanceof Refused) return { reason: error.message };
    throw error;
  }
}

/** @type {(page: Buffer) => Found[]} */
function formulasIn(page) {
  return spansOf(page).map(({ start, end, alone }) => {
    const text = textOf(page.subarray(start, end));
    if (text === null) return { start, end, kind: "formula", text: page.toString("utf8", start, end), parts: [], reason: NO_TEXT };
    const reported = orReason(() => ({ parts: partsOf(text).flatMap((part) => asked(part, alone)) }));
    return { start, end, kind: "formula", text, parts: [], ...reported };
  });
}

/**
 * A formula of prose; one that KaTeX isn't asked for stays as its TeX.
 * @type {(formula: import("./prose.js").Formula, left: Left[]) => Asked}
 */
function askedInProse({ tex, display }, left) {
  const fallback = display ? `$$${tex}$$` : `$${tex}$`;
  const reported = orReason(() => {
    if (!isSeen(tex)) throw new Refused("a character that is not seen");
    return { ...askedFormula(tex, display), fallback };
  });
  if (!("reason" in reported)) return reported;
  left.push({ kind: "formula", text: fallback, reason: reported.reason });
  return { html: escapedText(fallback) };
}

/** @type {(read: Read, text: string, left: Left[]) => Asked[]} */
function partsOfProse(read, text, left) {
  if ("reason" in read) throw new Refused(read.reason);
  const pieces = piecesOfProse(read.trees);
  const html = pieces.filter((piece) => typeof piece === "string").join("");
  if (html.length > longestFor(text)) throw new Refused("too long");
  return pieces.map((piece) => (typeof piece === "string" ? { html: piece } : askedInProse(piece, left)));
}

/** @type {(page: Buffer, means: Means, deadline: number, left: Left[]) => Promise<Found[]>} */
async function proseIn(page, { markdown, isProse }, deadline, left) {
  const all = proseOf(page, isProse).map((one) => ({ ...one, text: one.text ?? "", isText: one.text !== null }));
  const answers = await answersTo(markdownOf(markdown), all.map(({ text }) => ({ text, longest: longestFor(text) })), deadline);
  return all.map(({ start, end, text, source, isText }, index) => {
    if (!isText) return { start, end, kind: "prose", text: source, parts: [], reason: NO_TEXT };
    return { start, end, kind: "prose", text, parts: [], ...orReason(() => ({ parts: partsOfProse(answers[index], text, left) })) };
  });
}

/** @type {(question: Question) => string} */
function keyOf({ tex, display }) {
  return `${display ? "display" : "inline"} ${tex}`;
}

/**
 * What is asked of KaTeX, each question once.
 * @type {(found: Found[]) => Map<string, Question>}
 */
function questionsFor(found) {
  const parts = found.flatMap((one) => one.parts);
  return new Map(parts.flatMap((part) => ("question" in part ? [[keyOf(part.question), part.question]] : [])));
}

/** @type {(part: {tex: string, question: Question}, answers: Map<string, Answer>) => string} */
function mathFor({ tex, question }, answers) {
  const answer = answers.get(keyOf(question));
  if (!answer) throw new Error("a formula that was not asked for");
  if ("reason" in answer) throw new Refused(answer.reason);
  const math = mathOf(answer.markup, tex, question.display);
  if (math.length > question.longest) throw new Refused("too long");
  return math;
}

/**
 * A part of a block, or of prose, in which a formula that can't be set stays as its TeX and all else is set.
 * @type {(part: Asked, answers: Map<string, Answer>, left: Left[]) => string}
 */
function htmlOfPart(part, answers, left) {
  if ("html" in part) return part.html;
  const { fallback } = part;
  if (fallback === undefined) return mathFor(part, answers);
  const reported = orReason(() => mathFor(part, answers));
  if (typeof reported === "string") return part.question.display ? `<span class="display">${reported}</span>` : reported;
  left.push({ kind: "formula", text: fallback, reason: reported.reason });
  return escapedText(fallback);
}

/** @type {(found: Found, answers: Map<string, Answer>, left: Left[]) => {html: string} | {reason: string}} */
function htmlOf({ kind, parts, reason }, answers, left) {
  if (reason !== undefined) return { reason };
  const reported = orReason(() => parts.map((part) => htmlOfPart(part, answers, left)).join(""));
  if (typeof reported !== "string") return reported;
  return { html: kind === "prose" ? proseSection(reported) : reported };
}

/**
 * How many formulas KaTeX is asked for: a block counts as one, of prose each does.
 * @type {(found: Found[]) => number}
 */
function countOf(found) {
  const counts = found.map(({ kind, parts }) => (kind === "prose" ? parts.filter((part) => "question" in part).length : 1));
  return counts.reduce((sum, count) => sum + count, 0);
}

/**
 * The page with its formulas and its prose set, before a time.
 * @type {(page: Buffer, means: Means, deadline: number) => Promise<{page: Buffer, formulas: number, prose: number, left: Left[]}>}
 */
async function typeset(page, means, deadline) {
  await load();
  /** @type {Left[]} */
  const left = [];
  const prose = await proseIn(page, means, deadline, left);
  const unasked = left.length; // formulas of prose
  const found = [...formulasIn(page), ...prose].sort((one, other) => one.start - other.start);
  const questions = questionsFor(found);
  const reported = await answersTo(katexOf(means.katex), [...questions.values()], deadline);
  const answers = new Map([...questions.keys()].map((key, index) => [key, reported[index]]));
  const made = [];
  for (const one of found) {
    const result = htmlOf(one, answers, left);
    if ("html" in result) made.push({ ...one, html: result.html });
    else left.push({ kind: one.kind, text: one.text, reason: result.reason });
  }
  const isMath = made.some(({ kind, html }) => kind === "formula" || html.includes("<math "));
  const isProse = made.some(({ kind }) => kind === "prose");
  const styles = (isMath ? STYLE : "") + (isProse ? PROSE_STYLE : "");
  return { page: pageWith(page, made, styles), formulas: countOf(found) + unasked, prose: prose.length, left };
}

module.exports = { typeset };
