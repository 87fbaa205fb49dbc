"use strict";
// Formulas of more than 5,000 characters: a long sum is one formula for each of its terms, between which a browser breaks lines.

const assert = require("node:assert/strict");
const { piecesOf, wordsOfKatex } = require("../lib/latex.js");
const { test } = require("./loaded.js");
const { pageOf, span } = require("./pages.js");
const { run, contentsOf } = require("./run.js");
const { readContent, textOf } = require("./tree.js");

/** @type {(count: number, term: (at: number) => string, sign?: string) => string} */
const sum = (count, term, sign = " + ") => Array.from({ length: count }, (_, at) => term(at)).join(sign);
const power = (/** @type {number} */ at) => `${at}x^{${at}}`;
const LONG = sum(600, power);
const WORD = "\\displaystyle ";

/**
 * The pieces without what was put before and after them.
 * @type {(pieces: string[]) => string}
 */
const joined = (pieces) => pieces.map((piece) => piece.slice(piece.startsWith(WORD) ? WORD.length : 0).replace(/\{\}$/, "")).join("");

/** Sums, and how many terms they have in which no line is broken. */
/** @type {[string, string, number][]} */
const SUMS = [
  ["powers", LONG, 600],
  ["with both signs", sum(500, (at) => `${at}x^{-${at}} - ${at}y_{a+b}^{c-d}`), 1000],
  ["of gp", sum(500, (at) => `${at}\\*x^${at}\\*y`, "-"), 500],
  ["fractions", sum(400, (at) => `\\frac{${at}-x}{${at}+x}`), 400],
  ["in fences", sum(300, (at) => `\\left(${at} + \\left[x - 1\\right]\\right)`), 300],
  ["with a sign of a number", sum(400, (at) => `a \\cdot -${at} = -b, -c`), 400],
  ["with a script that is a sign", sum(900, () => "x^+ y_- z"), 900],
  ["after a word for all", `\\displaystyle ${LONG}`, 600],
  ["of a table", sum(200, (at) => `\\begin{pmatrix}${at} + 1 & -1\\end{pmatrix}`), 200],
  ["brackets that are no fences", sum(400, (at) => `(${at} + 1)x^{${at}}`), 400],
];

for (const [name, written, terms] of SUMS) {
  test(`a sum: ${name}`, () => {
    const tex = wordsOfKatex(written);
    assert.ok(tex.length > 5_000, String(tex.length));
    const pieces = piecesOf(tex, true, 0) ?? [];
    assert.equal(pieces.length, terms);
    assert.equal(joined(pieces), tex.replace(/^\\displaystyle /, ""));
    for (const piece of pieces.slice(0, -1)) assert.match(piece, /[+-]\{\}$/);
    const large = piecesOf(tex, false, 1_000) ?? [];
    assert.ok(large.length > 1 && large.every((piece) => piece.length < 1_300), "pieces of a thousand characters");
    assert.equal(joined(large), tex.replace(/^\\displaystyle /, ""));
  });
}

test("a term that is long by itself is broken within its brackets", () => {
  const pieces = piecesOf(`3(${sum(1_000, power)}) + 1`, false, 0) ?? [];
  assert.equal(joined(pieces), `3(${sum(1_000, power)}) + 1`);
  assert.ok(pieces.length > 1 && pieces.every((piece) => piece.length < 5_100));
});

/** @type {[string, string][]} */
const WHOLE = [
  ["an open brace", `${LONG} + {`], ["a closing brace", `} + ${LONG}`], ["braces the wrong way", `}${LONG}{`], ["a fence without its end", `\\left(${LONG}`],
  ["an end without its fence", `${LONG}\\right)`], ["a fence across a brace", `{\\left( ${LONG}}\\right)`], ["an environment without its end", `\\begin{matrix}${LONG}`],
  ["an end of no environment", `${LONG}\\end{matrix}`], ["one huge term", "x".repeat(6_000)], ["a sum in braces", `{${LONG}}`], ["a sum in a fence", `\\left(${LONG}\\right)`],
  ["a sum in a root", `\\sqrt{${LONG}}`], ["a fraction of another kind", `${LONG} \\over 2`], ["a break of a line", `${LONG} \\\\ 1`], ["a cell", `${LONG} & 1`],
  ["a colour for the rest", `\\color{red} ${LONG}`], ["a comment", `${LONG} % + {\n`], ["a number at its side", `${LONG} \\tag{1}`], ["a backslash at the end", `{${LONG}\\`],
  ["40,000 signs", "+".repeat(40_000)], ["40,000 braces", "{".repeat(40_000)], ["20,000 pairs of braces", "{".repeat(20_000) + "}".repeat(20_000)],
];

for (const [name, tex] of WHOLE) test(`none: ${name}`, () => assert.equal(piecesOf(tex, true, 0), null));

test("a short one is one piece", () => {
  for (const tex of ["a + b", "{", LONG.slice(0, 5_000)]) assert.deepEqual(piecesOf(tex, true, 0), [tex]);
});

test("it takes no longer than its length", () => {
  const start = Date.now();
  for (const tex of [sum(6_000, (at) => `x^${at}`), `${"(".repeat(20_000)}${LONG}`, `${"\\left(".repeat(8_000)}`, "a+".repeat(25_000), `${LONG}${"^".repeat(20_000)}`]) piecesOf(tex, true, 0);
  assert.ok(Date.now() - start < 5_000, `${Date.now() - start} ms`);
});

test("a page with long sums", () => {
  const huge = `$${"\\frac{1}{2}x".repeat(2_500)}$`;
  const texts = [`$${LONG}$`, `\\magenta\\%1 = $\\blue ${sum(500, (at) => `${at}\\*x^${at}`)}$`, `$${sum(3_500, power).slice(0, 49_000).replace(/ \+ [^+]*$/, "")}$`, huge, `$${LONG} + {$`, `$\\left(${LONG}$`,
    `$${sum(6_000, power)}$`];
  const before = pageOf("long", texts.map((text) => ({ output: span(text) })));
  const { page, reported, status } = run(before, "--report");
  assert.equal(status, 0);
  const contents = contentsOf(before, page);
  const trees = contents.slice(0, 3).map((content) => readContent(content).filter((part) => typeof part !== "string"));
  assert.deepEqual(trees.slice(0, 2).map((all) => all.length), [600, 500]);
  assert.equal(trees[0].map(textOf).join("").replace(/[^\d+x]/g, ""), LONG.replace(/[^\d+x]/g, ""));
  assert.ok(trees[2].length > 2_000, String(trees[2].length));
  for (const [at, text] of texts.slice(3).entries()) assert.equal(contents[at + 3], text);
  assert.match(reported, /more than 20000 characters, and no sign between terms/);
  assert.match(reported, /more than 50000 characters/);
});
