"use strict";
// Hostile texts: nothing but MathML of the list comes out, all else of the page stays byte for byte, and none stops the others.

const assert = require("node:assert/strict");
const { test } = require("node:test");
const { HOSTILE } = require("./hostile.js");
const { pageOf, span, escaped, parts } = require("./pages.js");
const { run, contentsOf } = require("./run.js");
const { readContent, textOf } = require("./tree.js");

const GOOD = "$\\frac{1}{2}$";
const MOST_SECONDS = 60;

const before = pageOf("hostile </title>", HOSTILE.flatMap(({ name, tex }) => [{ input: name, output: span(tex) }, { output: span(GOOD) }]));
const { status, page, seconds, reported } = run(before, "--report");
const contents = contentsOf(before, page);

test("the run ends in time", () => {
  assert.equal(status, 0);
  assert.ok(seconds < MOST_SECONDS, `${seconds} seconds`);
  assert.ok(HOSTILE.length >= 60);
  assert.equal(contents.length, 2 * HOSTILE.length);
});

test("links and pictures are refused by KaTeX itself, before the list is asked", () => {
  assert.match(reported, /the attribute mathcolor of mstyle/);
  assert.doesNotMatch(reported, /the attribute (?:href|src|class|id) of|mglyph/);
});

for (const [index, { name, tex, shows, slow }] of HOSTILE.entries()) {
  test(name, () => {
    const content = contents[2 * index];
    if (shows === undefined || (slow && content === escaped(tex))) {
      assert.equal(content, escaped(tex));
    } else {
      const trees = readContent(content);
      assert.equal(trees.length, 1);
      assert.equal(textOf(trees[0]), shows);
    }
    assert.equal(readContent(contents[2 * index + 1]).map(textOf).join(""), "12", "the one after it");
  });
}

test("spans in spans: the innermost are set", () => {
  const [start, end] = [parts.tex_start, parts.tex_end];
  const deep = 100;
  const outputs = [
    `${start}$a$${span("$b$")}$c$${end}`,
    `${start}${start}${span("$b$")}${end}${end}`,
    start.repeat(deep) + "$b$" + end.repeat(deep),
    `{x:${span("$b$")}}`,
  ];
  const nested = pageOf("nested", outputs.map((output) => ({ output })));
  const { page: typeset, reported } = run(nested);
  const made = contentsOf(nested, typeset);
  assert.deepEqual([made.length, reported], [outputs.length, ""]);
  for (const content of made) assert.equal(readContent(content).map(textOf).join(""), "b");
});

test("a span that is deeper than browsers go stays", () => {
  const deep = pageOf("deep", [{ output: parts.tex_start.repeat(101) + "$b$" + parts.tex_end.repeat(101) }]);
  assert.deepEqual(contentsOf(deep, run(deep).page), ["$b$"]);
});

test("a page grows by no more than its formulas allow", () => {
  assert.ok(page.length < before.length + 200 * before.length + 2_000 * contents.length);
});
