// How the page reads a block `latex`: clients/typeset, which reads by the same source, refuses what the page leaves as text, and gives the same of all else.

import assert from "node:assert/strict";
import { createRequire } from "node:module";
import path from "node:path";
import { test } from "node:test";
import { fileURLToPath } from "node:url";

import { partsOf, piecesOf, wordsOfKatex } from "../page/latex.js";

const require = createRequire(import.meta.url);
const typeset = path.join(path.dirname(fileURLToPath(import.meta.url)), "..", "..", "typeset");
const theirs = require(path.join(typeset, "lib", "latex.js"));
await theirs.load();
const written = Object.values(require(path.join(typeset, "test", "formulas.js"))).flat(2).flatMap((one) => (typeof one?.tex === "string" ? [one.tex] : []));

/** What typeset tells, null where it refuses. */
const orNull = (call) => {
  try {
    return call();
  } catch {
    return null;
  }
};

/** Texts of all kinds, made of pieces that mean something. */
function* texts(count) {
  const pieces = ["$", "$$", "\\(", "\\)", "\\[", "\\]", "x", "^2", "{", "}", "\\", "\\\\", "\\frac{1}{2}", "\\blue ", "\\magenta\\%1 = ", "\\mbox{a}", "\\*", "\\begin{align}", "\\end{align}",
    "\\def", "\\define", "\\newcommand", "\\let", "%", "\\%", "&", "_", "#", "~", " words ", "\n", "\u202e", "\u200b", "\\ifx\\endpmatrix\\undefined\\pmatrix{\\else\\begin{pmatrix}\\fi",
    "\\ifx\\endpmatrix\\undefined}\\else\\end{pmatrix}\\fi", "é", "𝑥", "\\$", "\\ "];
  let seed = 7;
  const next = (limit) => {
    seed = (seed * 1103515245 + 12345) % 2147483648;
    return Math.floor((seed / 2147483648) * limit);
  };
  for (let number = 0; number < count; number += 1) {
    const text = Array.from({ length: 1 + next(7) }, () => pieces[next(pieces.length)]).join("");
    yield next(2) ? text : `a $${text}$`;
  }
}

test("words and formulas of a block, as typeset has them", () => {
  let formulas = 0;
  for (const text of texts(20_000)) {
    const ours = partsOf(text);
    assert.deepEqual(ours, orNull(() => theirs.partsOf(text)), JSON.stringify(text));
    formulas += ours === null ? 0 : 1;
  }
  assert.ok(formulas > 500, `${formulas} with formulas`);
});

test("formulas as interpreters wrote them", () => {
  assert.ok(written.length >= 70, `${written.length} formulas`);
  for (const text of written) {
    assert.notEqual(partsOf(text), null, text);
    assert.deepEqual(partsOf(text), theirs.partsOf(text));
  }
});

test("pieces of a long sum, as typeset has them", () => {
  let broken = 0, whole = 0;
  const all = [...texts(20_000)];
  for (let at = 0; at < all.length; at += 60) {
    const text = all.slice(at, at + 60).map((one) => one.replaceAll("$", "")).join(at % 120 ? " + " : " - ") + " + x_1 - y".repeat(at % 240 ? 600 : 0);
    const plain = text.replace(/[{}%&]|\\\\|\\(?:begin|end|ifx|else|fi|pmatrix|endpmatrix|undefined)\b/g, "");
    for (const tex of [text, plain, `${plain} + ${plain}`]) {
      const ours = piecesOf(tex, at % 2 === 0, 50);
      assert.deepEqual(ours, theirs.piecesOf(tex, at % 2 === 0, 50), JSON.stringify(tex));
      if (ours === null) whole += 1;
      else if (ours.length > 1) broken += 1;
    }
  }
  assert.ok(broken > 20 && whole > 20, `${broken} broken, ${whole} whole`);
});

test("words that KaTeX knows, as typeset has them", () => {
  let refused = 0;
  for (const text of texts(20_000)) {
    const ours = wordsOfKatex(text);
    assert.equal(ours, orNull(() => theirs.wordsOfKatex(text)), JSON.stringify(text));
    refused += ours === null ? 1 : 0;
  }
  assert.ok(refused > 100, `${refused} that define words`);
});
