"use strict";
// Prose: what Markdown says, which fields are prose, and that whatever is written there nothing but the list comes out.

const assert = require("node:assert/strict");
const fs = require("node:fs");
const os = require("node:os");
const path = require("node:path");
const { test, after } = require("node:test");
const { HOSTILE_PROSE } = require("./hostile.js");
const { pageOf, span, escaped } = require("./pages.js");
const { run } = require("./run.js");
const { shownBy, proseOf, withoutProse } = require("./prose.js");
const { PROSE_STYLE, STYLE } = require("../lib/page.js");

const MARKDOWN = ["/usr/share/nodejs/markdown-it/dist/markdown-it.js", "/usr/share/javascript/markdown-it/markdown-it.js"];
const options = { skip: MARKDOWN.some((file) => fs.existsSync(file)) ? false : "there is no markdown-it (Debian's package libjs-markdown-it)" };
const folder = fs.mkdtempSync(path.join(os.tmpdir(), "typeset-"));
after(() => fs.rmSync(folder, { recursive: true }));

/** @type {(input: string, session?: string) => import("./pages.js").Field} */
const prose = (input, session = "prose") => ({ session, input, output: null });

const X = '<math alttext="x"><mrow><mi>x</mi></mrow></math>';
const LARGE = '<span class="display"><math displaystyle="true" alttext="x"><mrow><mi>x</mi></mrow></math></span>';
/** @type {[string, string][]} */
const WRITTEN = [
  ["text", "<p>text</p>"],
  ["# One\n\n## Two\n\n###### Six", "<h2>One</h2><h3>Two</h3><h6>Six</h6>"],
  ["*a* **b** ~~c~~ `d<e>`", "<p><em>a</em> <strong>b</strong> <s>c</s> <code>d&lt;e&gt;</code></p>"],
  ["- a\n- b\n\n> c", "<ul><li>a</li><li>b</li></ul><blockquote><p>c</p></blockquote>"],
  ["7. a\n\n8. b", '<ol start="7"><li><p>a</p></li><li><p>b</p></li></ol>'],
  ["```python\nf(<b>)\n```\n\n    g", "<pre><code>f(&lt;b&gt;)\n</code></pre><pre><code>g</code></pre>"],
  ["a  \nb\nc\n\n---", "<p>a<br>b\nc</p><hr>"],
  ["|a|b|\n|-|-:|\n|1|2|", '<table><thead><tr><th>a</th><th class="right">b</th></tr></thead><tbody><tr><td>1</td><td class="right">2</td></tr></tbody></table>'],
  ["[a](http://b/?c&d) <mailto:e@f.org> [g][h]\n\n[h]: HTTPS://i", '<p><a href="http://b/?c&amp;d" rel="noopener noreferrer">a</a> '
    + '<a href="mailto:e@f.org" rel="noopener noreferrer">mailto:e@f.org</a> <a href="HTTPS://i" rel="noopener noreferrer">g</a></p>'],
  ["$x$ and $$x$$, \\$5, `$x$`, $6", `<p>${X} and ${LARGE}, $5, <code>$x$</code>, $6</p>`],
  ["$$x$$", `<p>${LARGE}</p>`],
  ["$\\nonsense$ $\\def\\a{\\a}\\a$", "<p>$\\nonsense$ $\\def\\a{\\a}\\a$</p>"],
  ["# $x$\n\n- **$x$**", `<h2>${X}</h2><ul><li><strong>${X}</strong></li></ul>`],
  ["é \u{1f600} 中", "<p>é \u{1f600} 中</p>"],
  ["", ""],
];

test("what Markdown says", options, () => {
  const before = pageOf("page", WRITTEN.map(([text]) => prose(text)));
  const { status, page, reported } = run(before);
  const made = proseOf(page);
  for (const [index, [text, html]] of WRITTEN.entries()) assert.equal(made.get(index + 1), html, text);
  assert.equal(status, 0);
  assert.equal(reported, "tmhost-typeset: 2 of 7 formulas stay as their TeX\n");
  assert.equal(withoutProse(page, before), before);
  assert.ok(page.includes(`${STYLE}${PROSE_STYLE}</head>`));
});

test("a display of several lines, whatever they begin with", options, () => {
  const texts = ["text\n$$\nx\n+ y\n- z\n$$\ntext", "- a\n\n  $$\n  x\n  $$", "$$\nx\n\ny$$", "$$\n# x"];
  const { page } = run(pageOf("page", texts.map((text) => prose(text))));
  const counts = [...proseOf(page).values()].map((html) => html.match(/<math /g)?.length ?? 0);
  assert.deepEqual(counts, [1, 1, 0, 0]);
  assert.deepEqual([...proseOf(page).values()].map(shownBy).map((text) => text.replace(/\s/g, "")), ["textx+y−ztext", "ax", "$$xy$$", "$$x"]);
});

test("which fields are prose", options, () => {
  const fields = [
    prose("*1*"), prose("*2*", "prose-2"), prose("*3*", "prose-x"), prose("*4*", "py"), { ...prose("*5*"), output: "answer" },
    { ...prose("*6*"), lost: "Ended" }, prose("*7*", "mine"),
  ];
  const before = pageOf("page", fields);
  /** @type {(...words: string[]) => number[]} */
  const numbers = (...words) => {
    const { status, page } = run(before, ...words);
    assert.equal(status, 0);
    assert.equal(withoutProse(page, before), before);
    return [...proseOf(page).keys()];
  };
  assert.deepEqual(numbers(), [1, 2, 6]);
  assert.deepEqual(numbers("--prose", "mine"), [7]);
  assert.deepEqual(numbers("--prose", "mine", "--prose", "py"), [4, 7]);
  assert.deepEqual(numbers("--no-prose"), []);
  assert.equal(run(before, "--no-prose").page.toString(), before);
  assert.equal(run(before, "--no-prose", "--prose", "x").status, 2);
});

test("a page twice is a page once; prose beside formulas", options, () => {
  const before = pageOf("page", [prose("# $x$"), { output: span("$y$") }, prose("text")]);
  const once = run(before);
  assert.deepEqual([...proseOf(once.page).values()], [`<h2>${X}</h2>`, "<p>text</p>"]);
  assert.ok(once.page.includes('<span class="tex"><math displaystyle="true" alttext="y">'));
  assert.deepEqual(run(once.page).page, once.page);
});

test("bytes that are no UTF-8, and a field of an older page", options, () => {
  const before = Buffer.from(pageOf("page", [prose("a\u00ffb"), prose("*c*")]), "latin1");
  const { page, reported } = run(before, "--report");
  assert.deepEqual([...proseOf(page).values()], ["<p><em>c</em></p>"]);
  assert.equal(reported, 'left prose "a\\u{fffd}b": "no text of an export"\ntmhost-typeset: 1 of 2 fields of prose stay as they are\n');
});

test("without markdown-it, and without time", options, () => {
  const before = pageOf("page", [prose("*a*")]);
  const { status, page, reported } = run(before, "--markdown-it", "/nowhere.js");
  assert.deepEqual([status, page.toString()], [1, before]);
  assert.equal(reported, "tmhost-typeset: markdown-it can't be started from /nowhere.js; Debian has it in the package libjs-markdown-it. The page has its formulas and prose as they were\n");
  assert.equal(run(before, "--no-prose", "--markdown-it", "/nowhere.js").page.toString(), before);
  assert.equal(run(before, "--seconds", "0").page.toString(), before);
  assert.equal(run(pageOf("page", [{ output: "x" }]), "--markdown-it", "/nowhere.js", "--katex", "/nowhere.js").status, 0);
});

// ---- prose that means harm

test("prose that means harm: nothing but the list comes out, and no page grows without end", options, () => {
  const before = pageOf("page", HOSTILE_PROSE.flatMap((text) => [prose(text), prose("*good*")]));
  const { status, page, seconds } = run(before);
  assert.equal(status, 0);
  assert.ok(seconds < 60, `${seconds} seconds`);
  const made = proseOf(page);
  assert.equal(withoutProse(page, before), before);
  for (const [index, text] of HOSTILE_PROSE.entries()) {
    const html = made.get(2 * index + 1);
    if (html === undefined) assert.ok(page.includes(`<code dir="ltr">${escaped(text)}</code>`), text);
    else assert.doesNotThrow(() => shownBy(html), text);
    assert.equal(made.get(2 * index + 2), "<p><em>good</em></p>");
  }
  assert.ok(made.size > 1.9 * HOSTILE_PROSE.length, `${made.size} of ${2 * HOSTILE_PROSE.length} are set`);
  const links = [...page.toString().matchAll(/<a href="([^#][^"]*)"/g)].map(([, link]) => link);
  assert.ok(links.length >= 5 && links.every((link) => /^(?:https?:\/\/|mailto:)/i.test(link)), links.join(" "));
  assert.ok(page.length < 3 * before.length, `${before.length} bytes become ${page.length}`);
});

/**
 * A markdown-it that tells these trees, or does something else.
 * @type {(name: string, body: string) => string}
 */
function fake(name, body) {
  const file = path.join(folder, `${name}.js`);
  const ruler = "{ ruler: { before() {} } }";
  fs.writeFileSync(file, `const reported = (text) => { ${body} };
process.on("message", ({ text }) => process.send({ trees: reported(text) }));
process.on = () => process;
module.exports = () => ({ inline: ${ruler}, block: ${ruler} });\n`);
  return file;
}

const P = (/** @type {unknown[]} */ ...within) => ["p", {}, within];
/** @type {unknown[]} */
const REFUSED = [
  [["script", {}, ["alert(1)"]]], [P(["script", {}, []])], [["style", {}, ["*{}"]]], [P(["img", { src: "x" }, []])], [["img", {}, []]], [["iframe", {}, []]], [["form", {}, []]],
  [["svg", {}, []]], [["math", {}, []]], [["object", {}, []]], [["base", {}, []]], [["h1", {}, []]], [["div", {}, []]], [["section", {}, []]], [["P", {}, []]], [["p ", {}, []]],
  [["p", { onclick: "x" }, []]], [["p", { id: "field-1" }, []]], [["p", { class: "out" }, []]], [["p", { style: "color:red" }, []]], [P(["span", {}, []])],
  [P(["a", { href: "javascript:alert(1)" }, []])], [P(["a", { href: " http://x" }, []])], [P(["a", { href: "http://x\n" }, []])], [P(["a", { href: "http://x y" }, []])],
  [P(["a", { href: "//x" }, []])], [P(["a", { href: "#field-1" }, []])], [P(["a", { href: `http://${"x".repeat(3000)}` }, []])], [P(["a", { href: "http://\u202e" }, []])],
  [P(["a", { target: "_top" }, []])], [P(["a", { href: 7 }, []])], [P(["a", { href: null }, []])], [P(["a", {}, [["em", {}, [["a", {}, []]]]]])], [["a", {}, []]],
  [["ol", { start: "x" }, []]], [["ol", { start: "-1" }, []]], [["ol", { start: "9".repeat(10) }, []]], [["td", {}, []]], [["tr", {}, []]], [["table", {}, [["td", {}, []]]]],
  [["table", {}, ["x"]]], [["ul", {}, [P("x")]]], [["li", {}, []]], [P(P("x"))], [["pre", {}, ["x"]]], [["pre", {}, [["b", {}, []]]]], [P(["code", {}, [["em", {}, []]]])], [["em", {}, []]],
  [["hr", {}, ["x"]]], [P(["br", {}, [["em", {}, []]]])], ["text"], [["blockquote", {}, ["x"]]], [["td", { class: "x" }, []]], [P(["tex", {}, []])], [P(["tex", {}, [["em", {}, []]]])],
  [["tex", {}, ["x"]]], [P(["constructor", {}, []])], [P(["em", { constructor: "x" }, []])], [P(["__proto__", {}, []])], [null], [7], [["p"]], [["p", {}]], [["p", null, "x"]], [[]], [{}], [[["p"], {}, []]],
  [P(null)], [P({ length: 1 })], [["p", {}, { length: 1 }]], [["p", [], ["x", 7]]], [P(["em", "onclick", ["x"]])],
  [Array.from({ length: 95 }).reduce((/** @type {unknown} */ within) => ["blockquote", {}, within ? [within] : []], undefined)],
  [P("x".repeat(100_000))],
];

test("trees that are not of the list", options, () => {
  const file = fake("hostile", `return ${JSON.stringify(REFUSED)}[Number(text)];`);
  const before = pageOf("page", REFUSED.map((_, index) => prose(String(index))));
  const { status, page, reported } = run(before, "--report", "--markdown-it", file);
  assert.equal(status, 0);
  assert.equal(page.toString(), before, reported);
  assert.match(reported, new RegExp(`${REFUSED.length} of ${REFUSED.length} fields of prose stay`));
});

const BROKEN = [
  { name: "it never ends", body: "for (;;) {}", reason: "it takes too long" },
  { name: "it ends its process", body: "process.exit(0);", reason: "markdown-it broke off" },
  { name: "it takes all memory", body: "const all = []; for (;;) all.push(new Array(1e5).fill(0));", reason: "markdown-it broke off" },
  { name: "it tells no trees", body: "return 'x';", reason: "markdown-it broke off" },
];

for (const { name, body, reason } of BROKEN) {
  test(`the others are set where ${name}`, options, () => {
    const file = fake(name.replaceAll(" ", "-"), `if (text === "bad") { ${body} } return [["p", {}, [text]]];`);
    const { status, page, seconds, reported } = run(pageOf("page", ["a", "bad", "longer"].map((text) => prose(text))), "--markdown-it", file, "--report");
    assert.equal(status, 0);
    assert.ok(seconds < 40, `${seconds} seconds`);
    assert.deepEqual([...proseOf(page).entries()], [[1, "<p>a</p>"], [3, "<p>longer</p>"]]);
    assert.equal(reported, `left prose "bad": "${reason}"\ntmhost-typeset: 1 of 3 fields of prose stay as they are\n`);
  });
}

const PIECES = ["*", "**", "_", "`", "``", "```\n", "~~~\n", "\n", "\n\n", "> ", "- ", "1. ", "    ", "  \n", "# ", "---\n", "===\n", "[", "](", ")", "![", "]: ", "<", ">", "<b>", "</b>", "<!--",
  "http://x", "javascript:x", "mailto:a@b", "|", "|-|\n", "$", "$$", "$$\n", "x", "^2", "\\", "\\frac", "{", "}", "&", "&lt;", "&#x3c;", '"', "'", "text", "é", "\u202e", "\u00a0", "~~", "&amp;"];

test("random prose", options, () => {
  let state = 20_261_126;
  const next = (/** @type {number} */ below) => {
    state = (Math.imul(state, 1_103_515_245) + 12_345) >>> 0;
    return (state >>> 8) % below;
  };
  const texts = Array.from({ length: 1500 }, () => Array.from({ length: 1 + next(40) }, () => PIECES[next(PIECES.length)]).join(""));
  const before = pageOf("page", texts.map((text) => prose(text)));
  const { page, status } = run(before, "--seconds", "300");
  const made = proseOf(page);
  assert.equal(status, 0);
  assert.equal(withoutProse(page, before), before);
  for (const [number, html] of made) assert.doesNotThrow(() => shownBy(html), texts[number - 1]);
  assert.ok(made.size > 0.95 * texts.length, `${made.size} are set`);
});
