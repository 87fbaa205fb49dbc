"use strict";
// Formulas of interpreters become the MathML that one expects of them.

const assert = require("node:assert/strict");
const { test } = require("node:test");
const { FORMULAS } = require("./formulas.js");
const { pageOf, span } = require("./pages.js");
const { run, contentsOf } = require("./run.js");
const { readContent, textOf, allOf } = require("./tree.js");

const before = pageOf("formulas", FORMULAS.map(({ from, tex }) => ({ session: from, input: tex, output: span(tex) })));
const { status, page, reported } = run(before, "--report");
const contents = contentsOf(before, page);

test("all are set", () => {
  assert.equal(reported, "");
  assert.equal(status, 0);
  assert.equal(contents.length, FORMULAS.length);
  assert.ok(FORMULAS.length >= 60);
});

for (const [index, formula] of FORMULAS.entries()) {
  test(`${formula.from}: ${formula.tex}`, () => {
    const parts = readContent(contents[index]);
    const trees = parts.flatMap((part) => (typeof part === "string" ? [] : [part]));
    const words = parts.filter((part) => typeof part === "string").join("");
    assert.ok(trees.length > 0);
    assert.equal(words, formula.words ?? "");
    assert.equal(trees.map(textOf).join(""), formula.text);
    for (const tree of trees) assert.equal(tree.attributes.displaystyle, "true");
    for (const [name, wanted] of Object.entries(formula.has ?? {})) {
      const found = trees.flatMap((tree) => allOf(tree, name));
      assert.deepEqual(found.map((node) => node.children.map(textOf)), wanted, name);
    }
    if (formula.rows) {
      const [table] = trees.flatMap((tree) => allOf(tree, "mtable"));
      assert.deepEqual(table.children.map((row) => allOf(row, "mtd").map(textOf)), formula.rows);
    }
  });
}
