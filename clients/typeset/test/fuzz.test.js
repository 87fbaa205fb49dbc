"use strict";
// Random formulas of all words that KaTeX has: whatever it makes of them, nothing but the list comes out.

const assert = require("node:assert/strict");
const fs = require("node:fs");
const { test } = require("node:test");
const { pageOf, span, escaped } = require("./pages.js");
const { run, contentsOf } = require("./run.js");
const { readContent } = require("./tree.js");

const KATEX = "/usr/share/javascript/katex/katex.js";
const COUNT = 3_000;
const SEED = 20_260_101;

/**
 * Numbers from 0 up to 1, the same at each run (Mulberry32).
 * @type {(seed: number) => () => number}
 */
function numbersFrom(seed) {
  let state = seed;
  return () => {
    state = (state + 0x6d2b79f5) | 0;
    let mixed = Math.imul(state ^ (state >>> 15), 1 | state);
    mixed = (mixed + Math.imul(mixed ^ (mixed >>> 7), 61 | mixed)) ^ mixed;
    return ((mixed ^ (mixed >>> 14)) >>> 0) / 2 ** 32;
  };
}

const next = numbersFrom(SEED);
/** @type {<T>(list: T[]) => T} */
const oneOf = (list) => list[Math.floor(next() * list.length)];

const WORDS = [...new Set(fs.readFileSync(KATEX, "utf8").match(/"\\\\[A-Za-z@]+\*?"/g))].map((word) => JSON.parse(word));
const ENVIRONMENTS = ["matrix", "pmatrix", "array", "cases", "aligned", "smallmatrix", "CD", "darray", "align", "gathered", "subarray"];
const ATOMS = [
  "x", "y", "12", "3.4", "+", "=", "(", ")", "|", "'", ",", "é", "ß", "中", "𝐀", "→", "\u0338", "<", ">", '"', "&", "\\\\", "\\,", "\\!", "\\ ", "~", "%", "#1",
  "^2", "_i", "^{a}", "_{b}", "\\#", "\\{", "\\|", "[2em]", "{1em}", "{-1em}", "{red}", "{#f00}", "{javascript:alert(1)}", "{<img src=x onerror=alert(1)>}",
  "{class}", "{a=b}", "{cc}", "{c|c}", "$y$", "\\left(", "\\right)", "\\middle|", "@>>>", "\\hline", "\\cr",
];

/** @type {(depth: number) => string} */
function piece(depth) {
  const kind = next();
  if (kind < 0.35 || depth === 0) return oneOf(ATOMS);
  if (kind < 0.45) return `{${pieces(depth - 1)}}`;
  if (kind < 0.52) return `\\left${oneOf(["(", "[", "|", ".", "\\{"])}${pieces(depth - 1)}\\right${oneOf([")", "]", "|", "."])}`;
  if (kind < 0.6) {
    const name = oneOf(ENVIRONMENTS);
    return `\\begin{${name}}${/array/.test(name) ? oneOf(["{cc}", "{rl}", "{c}"]) : ""}${pieces(depth - 1)}&${pieces(depth - 1)}\\\\${pieces(depth - 1)}\\end{${name}}`;
  }
  return oneOf(WORDS) + Array.from({ length: Math.floor(next() * 3) }, () => `{${pieces(depth - 1)}}`).join("");
}

/** @type {(depth: number) => string} */
function pieces(depth) {
  return Array.from({ length: 1 + Math.floor(next() * 3) }, () => piece(depth)).join(" ");
}

test("random formulas", () => {
  const formulas = Array.from({ length: COUNT }, (_, index) => (index < WORDS.length ? `$${WORDS[index]}{x}{y}$` : `$${pieces(3)}$`));
  const before = pageOf("fuzz", formulas.map((tex) => ({ output: span(tex) })));
  const contents = contentsOf(before, run(before, "--seconds", "300").page);
  let set = 0;
  for (const [index, content] of contents.entries()) {
    if (content === escaped(formulas[index])) continue;
    readContent(content);
    set += 1;
  }
  assert.ok(WORDS.length > 500, `${WORDS.length} words`);
  assert.ok(set > COUNT / 5, `${set} are set`);
});
