"use strict";
// The process in which KaTeX runs: `child.js KATEX`. It takes one formula after another, and its parent ends it where it takes too long.

const katex = require(process.argv[2]);

const MOST_EXPANSIONS = 100_000; // of KaTeX's own words; `\,` takes several
const WIDEST = 50; // em
const LETTERS = ["unicodeTextInMathMode", "mathVsTextAccents", "unknownSymbol"]; // of all scripts: they may stand in a formula

/**
 * @typedef {{tex: string, display: boolean, longest: number}} Question `longest`: characters that an answer may have
 * @typedef {{markup: string} | {reason: string}} Answer
 */

/** @type {(question: Question) => Answer} */
function answerTo({ tex, display, longest }) {
  let breaks = false; // of a line, which KaTeX drops in a formula that has its own
  const strict = (/** @type {string} */ code) => {
    breaks ||= code === "newLineInDisplayMode";
    return LETTERS.includes(code) ? "ignore" : "error";
  };
  try {
    const markup = katex.renderToString(tex, {
      displayMode: display, output: "mathml", throwOnError: true, trust: false, strict,
      maxExpand: MOST_EXPANSIONS, maxSize: WIDEST,
      macros: { "\\pmatrix": "\\begin{pmatrix}#1\\end{pmatrix}" }, // made for each formula, since KaTeX may change it
    });
    if (breaks) return { reason: "a break of a line" };
    if (typeof markup !== "string") return { reason: "no text" };
    return markup.length <= longest ? { markup } : { reason: "too long" };
  } catch (error) {
    return { reason: error instanceof Error ? error.message : "an error" };
  }
}

process.on("message", (question) => process.send?.(answerTo(/** @type {Question} */ (question))));
process.send?.("ready");
