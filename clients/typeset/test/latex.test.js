"use strict";
// How a block is read: words and formulas.

const assert = require("node:assert/strict");
const { partsOf, wordsOfKatex, isSeen } = require("../lib/latex.js");
const { spansOf, textOf } = require("../lib/page.js");
const { alphabetOf, inAlphabet } = require("../lib/letters.js");
const { test } = require("./loaded.js");

/** @type {(tex: string, display?: boolean) => object} */
const formula = (tex, display = false) => ({ kind: "formula", tex, display });
/** @type {(text: string) => object} */
const words = (text) => ({ kind: "words", text });

/** @type {[string, object[]][]} */
const READ = [
  ["$x$", [formula("x")]],
  ["$$x$$", [formula("x", true)]],
  ["\\(x\\)", [formula("x")]],
  ["\\[x\\]", [formula("x", true)]],
  ["\\begin{gather}x\\end{gather}", [formula("\\begin{gather}x\\end{gather}", true)]],
  ["$a$$b$", [formula("a"), formula("b")]],
  ["$$a$$$b$", [formula("a", true), formula("b")]],
  ["$a\\$b$", [formula("a\\$b")]],
  ["$\\text{a $b$ c}$", [formula("\\text{a $b$ c}")]],
  ["$a\\\\$", [formula("a\\\\")]],
  ["$\\{$", [formula("\\{")]],
  ["a $b$ c", [words("a "), formula("b"), words(" c")]],
  ["\\%1 = $b$", [words("%1 = "), formula("b")]],
  ["\\magenta\\%1 = $\\blue b$", [words("%1 = "), formula("\\blue b")]],
  ["\\magenta  x $b$", [words("x "), formula("b")]],
  ["\\$\\#\\&\\_\\{\\} $b$", [words("$#&_{} "), formula("b")]],
  ["", []],
];

/** @type {[string, RegExp][]} */
const STAYS = [
  ["x", /no formula/], ["two words", /no formula/], ["$x", /character 1 /], ["x$", /character 2 /], ["$x$$", /character 4 /], ["${$", /character 1 /],
  ["$}$", /character 1 /], ["\\(x$", /character 1 /], ["\\[x\\)", /character 1 /], ["\\frac12", /character 1 /], ["\\magentax $b$", /character 1 /],
  ["x_1 $b$", /character 2 /], ["50% of $b$", /character 3 /], ["a~b $c$", /character 2 /], ["\\textbf{a} $b$", /character 1 /],
  ["\\begin{tabular}$x$\\end{tabular}", /character 1 /], ["\\", /character 1 /], ["$x$\\", /character 4 /], ["$\u202e$", /not seen/], ["$\0$", /not seen/],
  [`$${"x".repeat(50_000)}$`, /50000/],
];

test("blocks that have formulas", () => {
  for (const [text, parts] of READ.slice(0, -1)) assert.deepEqual(partsOf(text), parts, text);
});

test("blocks that stay", () => {
  for (const [text, reason] of STAYS) assert.throws(() => partsOf(text), reason, text);
  assert.throws(() => partsOf(""), /no formula/);
});

test("words of interpreters in words of KaTeX", () => {
  /** @type {[string, string][]} */
  const known = [
    ["\\blue x\\*y", " x\\,y"], ["\\mbox{a}", "\\text{a}"], ["\\mboxes", "\\mboxes"], ["a\\\\*b", "a\\\\*b"], ["\\blues", "\\blues"],
    ["\\definite\\letter", "\\definite\\letter"], ["x\\", "x\\"],
  ];
  for (const [tex, made] of known) assert.equal(wordsOfKatex(tex), made);
  for (const tex of ["\\def\\a{}", "\\\\\\def\\a{}", "\\let\\a\\b", "\\newcommand\\a{}"]) assert.throws(() => wordsOfKatex(tex), /defines/);
});

test("characters that are seen", () => {
  for (const text of ["", "x\ty\n", "größe", "中文", "ℝ∑→", "𝐢", "a\u0338"]) assert.ok(isSeen(text), text);
  for (const code of [0, 8, 0x0d, 0x1b, 0x7f, 0x9b, 0xad, 0x61c, 0x200b, 0x200f, 0x2028, 0x202e, 0x2066, 0xfeff, 0xfffe, 0xe000, 0xe0041, 0xd800, 0x10ffff]) {
    assert.ok(!isSeen(`x${String.fromCodePoint(code)}`), code.toString(16));
  }
});

/** @type {(text: string, variant: string) => string | null} */
function lettersOf(text, variant) {
  const alphabet = alphabetOf(variant);
  return alphabet ? inAlphabet(text, alphabet) : null;
}

test("letters of alphabets", () => {
  assert.equal(lettersOf("RZa1", "double-struck"), "ℝℤ𝕒𝟙");
  assert.equal(lettersOf("LBeg", "script"), "ℒℬℯℊ");
  assert.equal(lettersOf("CHIRZg", "fraktur"), "ℭℌℑℜℨ𝔤");
  assert.equal(lettersOf("hx1", "italic"), "ℎ𝑥1");
  assert.equal(lettersOf("AZaz09αωΑΩ", "bold"), "𝐀𝐙𝐚𝐳𝟎𝟗𝛂𝛚𝚨𝛀");
  assert.equal(lettersOf("+", "monospace"), "+");
  assert.equal(lettersOf("x", "owned"), null);
  for (const variant of ["bold", "italic", "bold-italic", "script", "fraktur", "double-struck", "sans-serif", "monospace"]) {
    for (const letter of "ABCDEFGHIJKLMNOPQRSTUVWXYZabcdefghijklmnopqrstuvwxyz") {
      const made = lettersOf(letter, variant) ?? "";
      assert.equal(made.normalize("NFKC"), letter, variant);
      assert.ok(isSeen(made));
    }
  }
});

test("texts of a page", () => {
  assert.equal(textOf(Buffer.from("&lt;b&gt; &amp;amp; &quot;&#39;")), "<b> &amp; \"'");
  assert.equal(textOf(Buffer.from("&apos;&#39;&#039;&#x27;&#X27;&#x00027;&#60;&#x1D538;&#233;&#10;")), `${"'".repeat(6)}<\u{1d538}\u00e9\n`);
  for (const text of ["&nbsp;", "&", "&lt", "<", '"', "'", "&AMP;", "& ;", "&&amp;", "&#;", "&#x;", "&#x27", "&#2 7;", "&#-1;", "&#x2G;", "&amp;lt;&"]) {
    assert.equal(textOf(Buffer.from(text)), null, text);
  }
  for (const other of ["0", "x0", "128", "x9f", "xd800", "57343", "x110000", "9".repeat(400)]) assert.equal(textOf(Buffer.from(`&#${other};`)), null, other);
  assert.equal(textOf(Buffer.from([0x24, 0xff, 0x24])), null);
});

test("which formulas have their line for themselves", () => {
  const [start, end] = ['<span class="tex">', "</span>"];
  /** @type {(output: string) => boolean[]} */
  const alone = (output) => spansOf(Buffer.from(`<pre class="out" dir="ltr">\n${output}</pre>`)).map((one) => one.alone);
  assert.deepEqual(alone(`${start}x${end}`), [true]);
  assert.deepEqual(alone(`a\n ${start}x${end}\t\nb`), [true]);
  assert.deepEqual(alone(`a ${start}x${end}`), [false]);
  assert.deepEqual(alone(`${start}x${end}.`), [false]);
  assert.deepEqual(alone(`${start}x${end}\n${start}y${end}`), [true, true]);
  assert.deepEqual(alone(`${start}x${end}${start}y${end}`), [false, false]);
  assert.deepEqual(alone(`${start}${start}x${end}${end}`), [true]);
});
